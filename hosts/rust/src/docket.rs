//! A docket that stays open.

use crate::answer::Answer;
use crate::forced::ForcedStatuses;
use crate::report::Report;
use crate::runs::CheapestRuns;
use crate::sys;
use crate::taken::{Fixed, UnitsTaken};
use std::fmt;

/// A text of more bytes is refused by 11.
pub const MOST_TEXT: usize = 1_048_576;

/// The number of the rules by which texts are judged. It goes up where some text gets another answer than it did before.
pub fn rules() -> u64 {
    sys::docket_rules() as u64
}

/// A docket: one problem, the cheapest accepted schedule so far and the highest bound of an accepted tree so far, where there
/// are such. A clone is a docket of its own.
///
/// It lives in memory: what must be kept for good are the texts that were lodged, for they decide everything. Calls run on their
/// caller's stack, of which [`STACK_BYTES`](crate::STACK_BYTES) are enough. Threads that lodge in one docket share it in a `Mutex`;
/// reports, outputs, units taken, runs and forced statuses may be asked for at once.
///
/// ```
/// use docket::{Bound, Docket, Figures, Verdict};
///
/// let mut docket = Docket::new();
/// let tree = b"kind=tree\nwriter=3\nshort=1\nend=tree\n";
/// assert_eq!(docket.lodge(tree).line(), "answer=refused,42,0,0,0");
///
/// let problem = b"kind=problem\nperiods=1\nunits=1\ndemand=10\nspare=0\n\
///                 unit=100,10,0,1,9,1,1,1,9,9,0,0,0,0,9\nend=problem\n";
/// assert_eq!(docket.lodge(problem).verdict(), Verdict::Held(Figures::Problem));
///
/// match docket.lodge(tree).verdict() {
///     Verdict::Held(Figures::Tree { bound, splits, leaves, .. }) => {
///         assert_eq!((bound, splits, leaves), (Bound::Never, 0, 1));
///     }
///     other => panic!("{other}"),
/// }
/// assert_eq!(docket.report().bound_writer(), Some(3));
/// ```
#[derive(Clone)]
pub struct Docket {
    numbers: Box<[u64]>,
    rows: Box<[u16]>,
}

impl Docket {
    /// A docket that holds nothing.
    pub fn new() -> Docket {
        let mut numbers = vec![0; sys::docket_numbers()].into_boxed_slice();
        let mut rows = vec![0; sys::docket_rows()].into_boxed_slice();
        let begun = sys::fresh(&mut numbers, &mut rows);
        debug_assert_eq!(begun, 0, "a state has as many numbers and rows");
        Docket { numbers, rows }
    }

    /// Lodges a text, any bytes. The docket changes only where the verdict is [`Held`](crate::Verdict::Held).
    pub fn lodge(&mut self, text: &[u8]) -> Answer {
        let mut line = [0; sys::LINE_BYTES];
        let mut values = [0; sys::VALUES];
        let answer = sys::lodge(
            &mut self.numbers,
            &mut self.rows,
            text,
            &mut line,
            &mut values,
        );
        Answer::of(&values, written(&line, answer))
    }

    /// What the docket holds: a cost and a bound, who wrote them, and the gap.
    pub fn report(&self) -> Report {
        let mut buffer = [0; sys::REPORT_BYTES];
        let answer = sys::report(&self.numbers, &self.rows, &mut buffer);
        Report::of(written(&buffer, answer))
    }

    /// The outputs of the held schedule: that of unit u in period t, both counted from 0, at u * T + t, T being the problem's
    /// periods, which its text says. Empty where no schedule is held.
    ///
    /// ```
    /// # let mut docket = docket::Docket::new();
    /// # docket.lodge(b"kind=problem\nperiods=2\nunits=2\ndemand=60,100\nspare=10,10\n\
    /// #                unit=100,10,0,20,80,2,2,3,30,30,50,90,1,5,60\nunit=40,14,0,10,50,1,1,-2,50,50,20,60,0,0,0\nend=problem\n");
    /// assert!(docket.outputs().is_empty());
    /// docket.lodge(b"kind=schedule\nwriter=7\nrun=60,80\nrun=0,20\nend=schedule\n");
    /// let outputs = docket.outputs();
    /// let rows: Vec<&[u16]> = outputs.chunks(2).collect();
    /// assert_eq!(rows, [[60, 80], [0, 20]]);
    /// ```
    pub fn outputs(&self) -> Vec<u16> {
        let mut outputs = [0; sys::OUTPUTS];
        let answer = sys::outputs(&self.numbers, &self.rows, &mut outputs);
        written(&outputs, answer).to_vec()
    }

    /// Whether `short` holds in a period of the problem, counted from 1, and how many units it takes to find out.
    ///
    /// It takes the units that are not fixed off there by number, or, where `most` is an upper count, the largest pU first and
    /// no more units than the count, and ends as soon as what it took reaches D + R. So they are the fewest, in that order, that
    /// reach D + R; or, where all that it may take do not, all of these, and then `short` holds.
    ///
    /// `fixed` has the status of unit u in period t, both counted from 0, at u * T + t, T being the problem's periods. The
    /// question is [`Unfit`](UnitsTaken::Unfit) where the period is not from 1 to T, an upper count is not below the number of
    /// units, or there are not as many statuses as units times periods. The docket stays as it is.
    ///
    /// ```
    /// use docket::{Docket, Fixed, UnitsTaken};
    ///
    /// let mut docket = Docket::new();
    /// let free = [Fixed::Free; 3];
    /// assert_eq!(docket.units_taken(1, None, &free), UnitsTaken::NoProblem);
    ///
    /// // three units of pU 30, 50 and 80, in one period that needs 100
    /// docket.lodge(b"kind=problem\nperiods=1\nunits=3\ndemand=90\nspare=10\n\
    ///                unit=0,0,0,1,30,1,1,-1,1,1,0,0,0,0,0\n\
    ///                unit=0,0,0,1,50,1,1,-1,1,1,0,0,0,0,0\n\
    ///                unit=0,0,0,1,80,1,1,-1,1,1,0,0,0,0,0\nend=problem\n");
    /// // by number all three are needed, largest first two
    /// assert_eq!(docket.units_taken(1, None, &free), UnitsTaken::Taken { short: false, units: 3 });
    /// assert_eq!(docket.units_taken(1, Some(2), &free), UnitsTaken::Taken { short: false, units: 2 });
    ///
    /// let largest_off = [Fixed::Free, Fixed::Free, Fixed::Off];
    /// match docket.units_taken(1, None, &largest_off) {
    ///     UnitsTaken::Taken { short, units } => assert_eq!((short, units), (true, 2)),
    ///     other => panic!("{other:?}"),
    /// }
    /// assert_eq!(docket.units_taken(2, None, &free), UnitsTaken::Unfit);
    /// ```
    pub fn units_taken(&self, period: usize, most: Option<usize>, fixed: &[Fixed]) -> UnitsTaken {
        let mut taken = [0; sys::TAKEN];
        // a count of which there is no next number is above the number of units either way
        let most = most.map_or(0, |count| count.saturating_add(1));
        let fixed = sys::bytes(fixed);
        let answer = sys::units_taken(&self.numbers, &self.rows, period, most, fixed, &mut taken);
        UnitsTaken::of(answer, taken)
    }

    /// The runs behind the value of a price leaf, and how far they fall short of the demand.
    ///
    /// The leaf has a price multiplier q and a reserve multiplier s for each of the problem's T periods, from 0 to 1,000,000,000,
    /// and `fixed` has the statuses that the splits above it fix: that of unit u in period t, both counted from 0, at u * T + t.
    /// A unit's run is T outputs, each 0 for off or from pL to pU, that keep the up and down times and agree with what is fixed.
    /// What it is worth is its cost less q * p + s * pU for each period on with output p. The cheapest run counts; of equal ones
    /// the one that is off where another is on, in the first period in which they differ in this, and then the one with the
    /// smallest outputs. The leaf's value is what these runs are worth and, over the periods, q * D + s * (D + R). They keep no
    /// ramps, and together they need not reach D or D + R.
    ///
    /// The question is [`Unfit`](CheapestRuns::Unfit) where there are not T prices and T reserves, a multiplier is above
    /// 1,000,000,000, or there are not as many statuses as units times periods. Where what is fixed leaves a unit no run, the
    /// lowest such unit is [`Stuck`](CheapestRuns::Stuck). The docket stays as it is.
    ///
    /// ```
    /// use docket::{CheapestRuns, Docket, Fixed};
    ///
    /// let mut docket = Docket::new();
    /// let mut fixed = [Fixed::Free; 4];
    /// assert_eq!(docket.cheapest_runs(&[10, 14], &[0, 0], &fixed), CheapestRuns::NoProblem);
    ///
    /// docket.lodge(b"kind=problem\nperiods=2\nunits=2\ndemand=60,100\nspare=10,10\n\
    ///                unit=100,10,0,20,80,2,2,3,30,30,50,90,1,5,60\n\
    ///                unit=40,14,0,10,50,1,1,-2,50,50,20,60,0,0,0\nend=problem\n");
    /// // unit 1 runs at its least in period 1, where its price is what its output costs, and at its most in period 2
    /// match docket.cheapest_runs(&[10, 14], &[0, 0], &fixed) {
    ///     CheapestRuns::Found(draft) => {
    ///         assert_eq!(draft.value, 1880);
    ///         assert_eq!(draft.runs, [[20, 80], [0, 0]]);
    ///         assert_eq!(draft.shortfalls, [40, 20]);
    ///     }
    ///     other => panic!("{other:?}"),
    /// }
    ///
    /// // its TD is 2: off in period 1 it cannot be on in period 2
    /// fixed[0] = Fixed::Off;
    /// fixed[1] = Fixed::On;
    /// let answer = docket.cheapest_runs(&[10, 14], &[0, 0], &fixed);
    /// assert_eq!(answer, CheapestRuns::Stuck { unit: 1 });
    /// ```
    pub fn cheapest_runs(&self, prices: &[u64], reserves: &[u64], fixed: &[Fixed]) -> CheapestRuns {
        // as much as fits; where there are more prices or statuses than a problem has, nothing does
        let mut runs = vec![0; fixed.len().min(sys::OUTPUTS)];
        let mut shortfalls = vec![0; prices.len().min(sys::OUTPUTS)];
        let mut value = [0];
        let answer = sys::cheapest_runs(
            &self.numbers,
            &self.rows,
            prices,
            reserves,
            sys::bytes(fixed),
            sys::Drafted {
                runs: &mut runs,
                shortfalls: &mut shortfalls,
                value: &mut value,
            },
        );
        CheapestRuns::of(answer, value[0], &runs, shortfalls)
    }

    /// What each unit is worth at a price leaf with a status forced, for every period and either status.
    ///
    /// The leaf is prices, reserves and `fixed`, as [`cheapest_runs`](Docket::cheapest_runs) has them. A value is the least that a
    /// run of the unit is worth, of those that agree with what is fixed and have the forced status in the period. It is the
    /// unit's own: the leaf's part for D and R is not in it. The lesser of a period's two values, or
    /// the one that is there, is what the unit's cheapest run is worth, and how far the other is above it is what it costs to force
    /// that status.
    ///
    /// There is no value where the unit is stuck: no such run is left, as where the period is fixed the other way, for forcing does
    /// not undo what is fixed. Of a unit to which what is fixed leaves no run at all there is none in any period; the other units'
    /// values are given.
    ///
    /// The question is [`Unfit`](ForcedStatuses::Unfit) where there are not T prices and T reserves, a multiplier is above
    /// 1,000,000,000, or there are not as many statuses as units times periods. The docket stays as it is.
    ///
    /// ```
    /// use docket::{Docket, Fixed, ForcedStatuses};
    ///
    /// let mut docket = Docket::new();
    /// let mut fixed = [Fixed::Free; 4];
    /// assert_eq!(docket.forced_statuses(&[10, 14], &[0, 0], &fixed), ForcedStatuses::NoProblem);
    ///
    /// docket.lodge(b"kind=problem\nperiods=2\nunits=2\ndemand=60,100\nspare=10,10\n\
    ///                unit=100,10,0,20,80,2,2,3,30,30,50,90,1,5,60\n\
    ///                unit=40,14,0,10,50,1,1,-2,50,50,20,60,0,0,0\nend=problem\n");
    /// match docket.forced_statuses(&[10, 14], &[0, 0], &fixed) {
    ///     ForcedStatuses::Found(table) => {
    ///         // unit 2 in period 2: off it is worth nothing, on its start costs 60 and it loses 40
    ///         let forced = table.units[1][1];
    ///         assert_eq!((forced.off, forced.on), (Some(0), Some(100)));
    ///     }
    ///     other => panic!("{other:?}"),
    /// }
    ///
    /// // fixed on there it cannot be off
    /// fixed[3] = Fixed::On;
    /// match docket.forced_statuses(&[10, 14], &[0, 0], &fixed) {
    ///     ForcedStatuses::Found(table) => assert_eq!(table.units[1][1].off, None),
    ///     other => panic!("{other:?}"),
    /// }
    /// ```
    pub fn forced_statuses(
        &self,
        prices: &[u64],
        reserves: &[u64],
        fixed: &[Fixed],
    ) -> ForcedStatuses {
        // as much as fits; where there are more statuses than a problem has, nothing does
        let entries = 2 * fixed.len().min(sys::OUTPUTS);
        let (mut values, mut stuck) = (vec![0; entries], vec![0; entries]);
        let answer = sys::forced_statuses(
            &self.numbers,
            &self.rows,
            prices,
            reserves,
            sys::bytes(fixed),
            &mut values,
            &mut stuck,
        );
        ForcedStatuses::of(answer, &values, &stuck, prices.len())
    }
}

impl Default for Docket {
    fn default() -> Docket {
        Docket::new()
    }
}

/// Cost and bound, each with its writer.
impl fmt::Debug for Docket {
    fn fmt(&self, f: &mut fmt::Formatter) -> fmt::Result {
        let report = self.report();
        f.debug_struct("Docket")
            .field("cost", &report.cost())
            .field("cost_writer", &report.cost_writer())
            .field("bound", &report.bound())
            .field("bound_writer", &report.bound_writer())
            .finish_non_exhaustive()
    }
}

/// What a call wrote, by the length that it answered. A call on a docket's own slices answers a length.
fn written<T>(room: &[T], answer: usize) -> &[T] {
    debug_assert!(answer <= room.len(), "a length, not {answer}");
    room.get(..answer).unwrap_or_default()
}
