//! How many units the sum for `short` takes: values worked out by hand, the questions that are
//! unfit, and many small problems against every number of units and against trees.

mod common;

use common::*;
use second::above::Above;
use second::inputs::random::Random;
use second::leaf::short_holds;
use second::{capacity_taken, fresh, lodge, Answer, Docket, Figures, Taken, TakenAnswer};

const FREE: u8 = 0;
const OFF: u8 = 1;
const ON: u8 = 2;

/// The answer with this number of units and whether `short` holds.
fn taken(units: usize, short: bool) -> TakenAnswer {
    TakenAnswer::Taken(Taken { short, units })
}

/// The third argument of a question for an upper count, or for none.
fn most_of(count: Option<usize>) -> usize {
    count.map_or(0, |count| count + 1)
}

/// The answer for one period with units of these pU, this need and these statuses.
fn asked(capacities: &[i64], needed: i64, count: Option<usize>, statuses: &[u8]) -> TakenAnswer {
    let docket = holding(&at_will(capacities, &[needed], &[0]));
    capacity_taken(&docket, 1, most_of(count), statuses)
}

/// The same with nothing fixed.
fn free(capacities: &[i64], needed: i64, count: Option<usize>) -> TakenAnswer {
    asked(capacities, needed, count, &vec![FREE; capacities.len()])
}

#[test]
fn falling_capacities() {
    let units = [80, 50, 30];
    // 80 is below 120, and 80 + 50 = 130 is not; the order is the same with a count.
    assert_eq!(free(&units, 120, None), taken(2, false));
    assert_eq!(free(&units, 120, Some(2)), taken(2, false));
    // One unit gives 80 at most.
    assert_eq!(free(&units, 120, Some(1)), taken(1, true));
    // Without the first, 50 + 30 = 80: both are taken and do not reach 120.
    let first_off = [OFF, FREE, FREE];
    assert_eq!(asked(&units, 120, None, &first_off), taken(2, true));
    assert_eq!(asked(&units, 120, Some(2), &first_off), taken(2, true));
    assert_eq!(asked(&units, 120, Some(1), &first_off), taken(1, true));
}

#[test]
fn rising_capacities() {
    let units = [30, 50, 80];
    // By number 30 + 50 = 80 is below 100, so the third is needed; largest first 80 + 50 is enough.
    assert_eq!(free(&units, 100, None), taken(3, false));
    assert_eq!(free(&units, 100, Some(2)), taken(2, false));
    // By number 30 + 50 = 80 is just enough; largest first the 80 alone is.
    assert_eq!(free(&units, 80, None), taken(2, false));
    assert_eq!(free(&units, 80, Some(2)), taken(1, false));
    // One more than that: the third by number, the second largest with a count.
    assert_eq!(free(&units, 81, None), taken(3, false));
    assert_eq!(free(&units, 81, Some(2)), taken(2, false));
    assert_eq!(free(&units, 81, Some(1)), taken(1, true));
}

/// A unit fixed off is passed over: it neither gives capacity nor counts.
#[test]
fn units_fixed_off_do_not_count() {
    let units = [30, 50, 80];
    // 30 + 80 = 110.
    assert_eq!(
        asked(&units, 100, None, &[FREE, OFF, FREE]),
        taken(2, false)
    );
    // 80 alone.
    assert_eq!(asked(&units, 80, None, &[OFF, OFF, FREE]), taken(1, false));
    // Largest first without the largest: 50 + 30 = 80.
    assert_eq!(
        asked(&units, 80, Some(2), &[FREE, FREE, OFF]),
        taken(2, false)
    );
    // Two are left though the count would allow three of four: 80 + 30 = 110.
    let four = [30, 50, 80, 20];
    let two_off = [FREE, OFF, FREE, OFF];
    assert_eq!(asked(&four, 111, Some(3), &two_off), taken(2, true));
    assert_eq!(asked(&four, 110, Some(3), &two_off), taken(2, false));
}

/// Where nothing is needed the empty sum reaches it, whatever is fixed and counted.
#[test]
fn no_need() {
    let units = [80, 50, 30];
    for count in [None, Some(0), Some(1), Some(2)] {
        assert_eq!(free(&units, 0, count), taken(0, false));
        for status in [OFF, ON] {
            assert_eq!(asked(&units, 0, count, &[status; 3]), taken(0, false));
        }
    }
}

/// With all units fixed off the sum is 0 and nothing can be taken.
#[test]
fn all_fixed_off() {
    for count in [None, Some(0), Some(1), Some(2)] {
        for needed in [1, 80, 320_000] {
            assert_eq!(
                asked(&[80, 50, 30], needed, count, &[OFF; 3]),
                taken(0, true)
            );
        }
    }
}

/// A count of 0 leaves a sum of 0, also where units are fixed on.
#[test]
fn a_count_of_none() {
    for status in [FREE, OFF, ON] {
        assert_eq!(asked(&[80, 50], 1, Some(0), &[status; 2]), taken(0, true));
        assert_eq!(asked(&[80, 50], 0, Some(0), &[status; 2]), taken(0, false));
        assert_eq!(asked(&[5], 1, Some(0), &[status]), taken(0, true));
    }
}

/// All three units give 160: exactly that is reached at the last one, and one more is not.
#[test]
fn reached_at_the_last_unit_or_just_not() {
    for units in [[80, 50, 30], [30, 50, 80], [50, 80, 30]] {
        assert_eq!(free(&units, 160, None), taken(3, false));
        assert_eq!(free(&units, 161, None), taken(3, true));
        // The two largest give 130.
        assert_eq!(free(&units, 130, Some(2)), taken(2, false));
        assert_eq!(free(&units, 131, Some(2)), taken(2, true));
    }
    assert_eq!(free(&[5], 5, None), taken(1, false));
    assert_eq!(free(&[5], 6, None), taken(1, true));
}

/// Of equal pU it makes no difference which are taken: 40 each, so 81 needs three of them.
#[test]
fn equal_capacities() {
    let units = [40, 40, 40, 40];
    for count in [None, Some(3)] {
        assert_eq!(free(&units, 81, count), taken(3, false));
        assert_eq!(free(&units, 80, count), taken(2, false));
        let first_off = [OFF, FREE, FREE, FREE];
        assert_eq!(asked(&units, 81, count, &first_off), taken(3, false));
        assert_eq!(asked(&units, 121, count, &first_off), taken(3, true));
    }
    assert_eq!(free(&units, 81, Some(2)), taken(2, true));
    // 40, 60, 60, 40: by number 40 + 60 = 100, largest first 60 + 60 = 120, then 160.
    let pairs = [40, 60, 60, 40];
    assert_eq!(free(&pairs, 101, None), taken(3, false));
    assert_eq!(free(&pairs, 101, Some(3)), taken(2, false));
    assert_eq!(free(&pairs, 121, Some(3)), taken(3, false));
    assert_eq!(free(&pairs, 161, Some(3)), taken(3, true));
}

/// A unit fixed on comes neither first nor instead of a larger one.
#[test]
fn fixed_on_has_no_precedence() {
    let units = [80, 50, 30];
    let last_on = [FREE, FREE, ON];
    // With two of them 80 + 50 = 130; were the third taken first they would give 110.
    assert_eq!(asked(&units, 130, Some(2), &last_on), taken(2, false));
    assert_eq!(asked(&units, 131, Some(2), &last_on), taken(2, true));
    // The first alone gives 80, by number and by size.
    assert_eq!(asked(&units, 80, None, &last_on), taken(1, false));
    assert_eq!(asked(&units, 80, Some(2), &last_on), taken(1, false));
    // More are fixed on than the count: still the largest alone is summed.
    assert_eq!(asked(&units, 81, Some(1), &[ON; 3]), taken(1, true));
    // By number the 30 comes before the 80 that is fixed on: 30 + 50 = 80.
    assert_eq!(asked(&[30, 50, 80], 80, None, &last_on), taken(2, false));
}

/// The need is demand and spare together: 100 + 20, for which 80 + 50 is the least.
#[test]
fn the_need_is_demand_and_spare() {
    for (demand, spare) in [(100, 20), (0, 120), (120, 0)] {
        let docket = holding(&at_will(&[80, 50, 30], &[demand], &[spare]));
        assert_eq!(capacity_taken(&docket, 1, 0, &[FREE; 3]), taken(2, false));
        assert_eq!(capacity_taken(&docket, 1, 2, &[FREE; 3]), taken(1, true));
    }
    // The largest need there is: 640,000, and one unit of 10,000.
    let docket = holding(&at_will(&[10_000], &[320_000], &[320_000]));
    assert_eq!(capacity_taken(&docket, 1, 0, &[FREE]), taken(1, true));
}

/// The problem of document 01: 80 and 50, 70 needed in period 1 and 110 in period 2.
#[test]
fn the_example_problem() {
    let docket = holding(PROBLEM);
    assert_eq!(capacity_taken(&docket, 1, 0, &[FREE; 4]), taken(1, false));
    assert_eq!(capacity_taken(&docket, 2, 0, &[FREE; 4]), taken(2, false));
    // The bytes are those of unit 1 in periods 1 and 2, then of unit 2.
    let second_off_later = [FREE, FREE, FREE, OFF];
    assert_eq!(
        capacity_taken(&docket, 2, 0, &second_off_later),
        taken(1, true)
    );
    assert_eq!(
        capacity_taken(&docket, 1, 0, &second_off_later),
        taken(1, false)
    );
    let first_off_later = [FREE, OFF, FREE, FREE];
    assert_eq!(
        capacity_taken(&docket, 2, 0, &first_off_later),
        taken(1, true)
    );
    assert_eq!(
        capacity_taken(&docket, 1, 0, &first_off_later),
        taken(1, false)
    );
    let second_off_first = [FREE, FREE, OFF, FREE];
    assert_eq!(
        capacity_taken(&docket, 1, 0, &second_off_first),
        taken(1, false)
    );
    assert_eq!(
        capacity_taken(&docket, 2, 0, &second_off_first),
        taken(2, false)
    );
}

/// Capacities 10, 20, to 320, and 101·t needed in period t.
fn largest_problem() -> Docket {
    let capacities: Vec<i64> = (1..=32).map(|unit| 10 * unit).collect();
    let demand: Vec<i64> = (1..=48).map(|period| 100 * period).collect();
    let spare: Vec<i64> = (1..=48).collect();
    holding(&at_will(&capacities, &demand, &spare))
}

#[test]
fn the_largest_problem_with_nothing_fixed() {
    let docket = largest_problem();
    let fixed = vec![FREE; 32 * 48];
    let asked = |period, count| capacity_taken(&docket, period, most_of(count), &fixed);
    // 707 in period 7: the first 11 give 660 and 12 give 780; 320 + 310 = 630, with 300 it is 930.
    assert_eq!(asked(7, None), taken(12, false));
    assert_eq!(asked(7, Some(31)), taken(3, false));
    assert_eq!(asked(7, Some(3)), taken(3, false));
    assert_eq!(asked(7, Some(2)), taken(2, true));
    // 4,848 in period 48: the first 30 give 4,650 and 31 give 4,960.
    assert_eq!(asked(48, None), taken(31, false));
    // All give 5,280; without the smallest 8 it is 4,920, without the smallest 9 4,830.
    assert_eq!(asked(48, Some(31)), taken(24, false));
    assert_eq!(asked(48, Some(24)), taken(24, false));
    assert_eq!(asked(48, Some(23)), taken(23, true));
    // 101 in period 1: the first 4 give exactly 100.
    assert_eq!(asked(1, None), taken(5, false));
    assert_eq!(asked(1, Some(31)), taken(1, false));
    assert_eq!(asked(1, Some(0)), taken(0, true));
}

#[test]
fn the_largest_problem_with_a_unit_fixed_off() {
    let docket = largest_problem();
    let off_in = |unit: usize, period: usize| {
        let mut fixed = vec![FREE; 32 * 48];
        fixed[(unit - 1) * 48 + period - 1] = OFF;
        fixed
    };
    // Without the 10, units 2 to 31 give 4,950 and units 2 to 30 give 4,640.
    let fixed = off_in(1, 48);
    assert_eq!(capacity_taken(&docket, 48, 0, &fixed), taken(30, false));
    // In period 7 nothing is fixed, nor in 48 by a status of 47.
    assert_eq!(capacity_taken(&docket, 7, 0, &fixed), taken(12, false));
    let fixed = off_in(1, 47);
    assert_eq!(capacity_taken(&docket, 48, 0, &fixed), taken(31, false));
    // Without the 320 all give 4,960: without the smallest 4 it is 4,860, without 5 4,810.
    let fixed = off_in(32, 48);
    assert_eq!(capacity_taken(&docket, 48, 32, &fixed), taken(27, false));
    assert_eq!(capacity_taken(&docket, 48, 27, &fixed), taken(26, true));
}

/// Of three units and two periods, in which 120 is needed each.
fn of_two_periods() -> Docket {
    holding(&at_will(&[80, 50, 30], &[120, 120], &[0, 0]))
}

/// Questions that do not go with that problem, each for one reason.
fn unfit_questions() -> Vec<(usize, usize, Vec<u8>)> {
    let free = vec![FREE; 6];
    let mut questions = Vec::new();
    for period in [0, 3, 48, usize::MAX] {
        questions.push((period, 0, free.clone()));
    }
    // A count is 2 at most, so that its number is 3 at most.
    for most in [4, 33, usize::MAX] {
        questions.push((1, most, free.clone()));
    }
    for length in [0, 1, 2, 3, 5, 7, 12, 32 * 48] {
        questions.push((1, 0, vec![FREE; length]));
    }
    // A wrong byte at any place, also in the period that is not asked for.
    for place in 0..6 {
        for byte in [3, 255] {
            let mut fixed = free.clone();
            fixed[place] = byte;
            questions.push((1, 0, fixed));
        }
    }
    questions
}

#[test]
fn every_way_to_be_unfit() {
    let docket = of_two_periods();
    for (period, most, fixed) in unfit_questions() {
        let answer = capacity_taken(&docket, period, most, &fixed);
        assert_eq!(answer, TakenAnswer::Unfit, "{period} {most} {fixed:?}");
    }
    let several = capacity_taken(&docket, 0, 4, &[9]);
    assert_eq!(several, TakenAnswer::Unfit);
    // At the ends of what is fit: the last period, the largest count, the highest byte.
    assert_eq!(capacity_taken(&docket, 2, 3, &[ON; 6]), taken(2, false));
    assert_eq!(capacity_taken(&docket, 1, 0, &[FREE; 6]), taken(2, false));
}

/// One unit and one period: a count is 0 at most, so that its number is 1 at most.
#[test]
fn unfit_for_the_smallest_problem() {
    let docket = holding(&at_will(&[5], &[5], &[0]));
    assert_eq!(capacity_taken(&docket, 1, 0, &[FREE]), taken(1, false));
    assert_eq!(capacity_taken(&docket, 1, 1, &[FREE]), taken(0, true));
    assert_eq!(capacity_taken(&docket, 1, 2, &[FREE]), TakenAnswer::Unfit);
    assert_eq!(capacity_taken(&docket, 2, 0, &[FREE]), TakenAnswer::Unfit);
    assert_eq!(capacity_taken(&docket, 1, 0, &[]), TakenAnswer::Unfit);
}

/// Without a problem every question gets that answer, fit for some problem or for none.
#[test]
fn no_problem_comes_before_unfit() {
    let mut refused = fresh();
    let damaged = PROBLEM.replace("periods=2", "periods=0");
    assert_eq!(lodge(&mut refused, damaged.as_bytes()), at_line(13, 2));
    assert_eq!(
        lodge(&mut refused, TREE.as_bytes()),
        common::refused(42, 0, 0, 0)
    );
    for docket in [fresh(), refused] {
        let fit = capacity_taken(&docket, 1, 0, &[FREE; 6]);
        assert_eq!(fit, TakenAnswer::NoProblem);
        for (period, most, fixed) in unfit_questions() {
            let answer = capacity_taken(&docket, period, most, &fixed);
            assert_eq!(answer, TakenAnswer::NoProblem);
        }
    }
}

/// What else is held plays no part, and texts that are refused or passed change nothing.
#[test]
fn only_the_problem_is_asked() {
    let mut docket = holding(PROBLEM);
    for text in [SCHEDULE, TREE, TREE, "", PROBLEM] {
        lodge(&mut docket, text.as_bytes());
        assert_eq!(capacity_taken(&docket, 1, 0, &[FREE; 4]), taken(1, false));
        assert_eq!(capacity_taken(&docket, 2, 2, &[FREE; 4]), taken(1, true));
    }
}

/// 80, 50 and 30 with 120 needed: what a tree's `short` leaf gets and what is told of it.
#[test]
fn trees_agree_with_what_is_told() {
    let leaf = "price=0 reserve=0";
    let units = [80, 50, 30];
    let lodged = |nodes: &str| under(&at_will(&units, &[120], &[0]), &tree(1, nodes));
    // A lone leaf: 160 is enough.
    assert_eq!(lodged("short=1"), at_line(33, 3));
    assert_eq!(free(&units, 120, None), taken(2, false));
    // With the first unit off there are 80.
    let nodes = format!("split=1,1 short=1 {leaf}");
    assert_eq!(lodged(&nodes), held_tree(0, 1, 2));
    assert_eq!(asked(&units, 120, None, &[OFF, FREE, FREE]), taken(2, true));
    // With the first unit on there are 160 still.
    let nodes = format!("split=1,1 {leaf} short=1");
    assert_eq!(lodged(&nodes), at_line(33, 6));
    assert_eq!(asked(&units, 120, None, &[ON, FREE, FREE]), taken(2, false));
    // At most one unit: 80. At most two: 130.
    let nodes = format!("count=1,1 short=1 {leaf}");
    assert_eq!(lodged(&nodes), held_tree(0, 1, 2));
    assert_eq!(free(&units, 120, Some(1)), taken(1, true));
    let nodes = format!("count=1,2 short=1 {leaf}");
    assert_eq!(lodged(&nodes), at_line(33, 4));
    assert_eq!(free(&units, 120, Some(2)), taken(2, false));
}

/// A small problem, often with equal pU, and a question about it that is fit.
struct Case {
    docket: Docket,
    capacities: Vec<i64>,
    /// D + R by period.
    needs: Vec<i64>,
    /// From 0.
    period: usize,
    count: Option<usize>,
    fixed: Vec<u8>,
}

impl Case {
    /// A case of at most six units and three periods, at random.
    fn new(random: &mut Random) -> Case {
        let periods = random.between(1, 3) as usize;
        let units = random.between(1, 6) as usize;
        let largest = random.pick(&[2, 4, 9]);
        let capacities: Vec<i64> = (0..units).map(|_| random.between(1, largest)).collect();
        let most: i64 = capacities.iter().sum::<i64>() + 1;
        let needs: Vec<i64> = (0..periods).map(|_| random.between(0, most)).collect();
        let demand: Vec<i64> = needs.iter().map(|&need| random.between(0, need)).collect();
        let spare: Vec<i64> = needs.iter().zip(&demand).map(|(n, d)| n - d).collect();
        let statuses = random.pick(&[&[FREE, OFF, ON], &[FREE, FREE, ON], &[FREE, FREE, OFF]]);
        Case {
            docket: holding(&at_will(&capacities, &demand, &spare)),
            needs,
            period: random.below(periods),
            count: random.chance(60).then(|| random.below(units)),
            fixed: (0..units * periods)
                .map(|_| random.pick(statuses))
                .collect(),
            capacities,
        }
    }

    /// What is told of the case.
    fn taken(&self) -> Taken {
        let most = most_of(self.count);
        match capacity_taken(&self.docket, self.period + 1, most, &self.fixed) {
            TakenAnswer::Taken(taken) => taken,
            answer => panic!("{answer:?}"),
        }
    }

    /// D + R of the period asked for.
    fn needed(&self) -> i64 {
        self.needs[self.period]
    }

    /// The byte of a unit and a period, both from 0.
    fn status(&self, unit: usize, period: usize) -> u8 {
        self.fixed[unit * self.needs.len() + period]
    }

    /// The numbers (from 0) of the units not fixed off in the period.
    fn open(&self) -> Vec<usize> {
        let units = 0..self.capacities.len();
        units
            .filter(|&unit| self.status(unit, self.period) != OFF)
            .collect()
    }

    /// The sum of the pU of these units.
    fn capacity(&self, units: &[usize]) -> i64 {
        units.iter().map(|&unit| self.capacities[unit]).sum()
    }

    /// Whether some set of so many units that may be used gives what is needed.
    fn some_set_reaches(&self, size: usize) -> bool {
        let open = self.open();
        (0..1_usize << open.len()).any(|bits| {
            let chosen = (0..open.len()).filter(|place| bits >> place & 1 == 1);
            let chosen: Vec<usize> = chosen.map(|place| open[place]).collect();
            chosen.len() == size && self.capacity(&chosen) >= self.needed()
        })
    }

    /// The least number of units that is enough, found by trying each: by number the first so many,
    /// where a count stands any so many; or all that are summed.
    fn expected_units(&self) -> usize {
        let open = self.open();
        let all = self.count.unwrap_or(open.len()).min(open.len());
        for size in 0..=all {
            let reached = match self.count {
                None => self.capacity(&open[..size]) >= self.needed(),
                Some(_) => self.some_set_reaches(size),
            };
            if reached {
                return size;
            }
        }
        all
    }

    /// What the split lines that fix these statuses and this count say to a leaf.
    fn above(&self) -> Above {
        let mut above = Above::root(self.docket.problem().unwrap());
        for unit in 0..self.capacities.len() {
            for period in 0..self.needs.len() {
                above.fixed[unit][period] = match self.status(unit, period) {
                    FREE => None,
                    status => Some(status == ON),
                };
            }
        }
        above.counts[self.period].upper = self.count;
        above
    }

    /// The node lines of a tree with a `short` leaf under these statuses and this count, and with
    /// price leaves elsewhere.
    fn nodes(&self) -> String {
        let zeros = vec!["0"; self.needs.len()].join(",");
        let leaf = format!("price={zeros} reserve={zeros}");
        let mut nodes = format!("short={}", self.period + 1);
        if let Some(count) = self.count {
            nodes = format!("count={},{count} {nodes} {leaf}", self.period + 1);
        }
        for unit in 0..self.capacities.len() {
            for period in 0..self.needs.len() {
                let split = format!("split={},{}", unit + 1, period + 1);
                nodes = match self.status(unit, period) {
                    OFF => format!("{split} {nodes} {leaf}"),
                    ON => format!("{split} {leaf} {nodes}"),
                    _ => nodes,
                };
            }
        }
        nodes
    }
}

#[test]
fn small_problems_against_the_leaf_and_every_number_of_units() {
    let mut random = Random::new(70);
    // By whether a count stands and whether `short` holds; early ends by the former alone.
    let mut seen = [[0; 2]; 2];
    let mut early = [0; 2];
    for _ in 0..20_000 {
        let case = Case::new(&mut random);
        let taken = case.taken();
        let above = case.above();
        let problem = case.docket.problem().unwrap();
        let nodes = case.nodes();
        assert_eq!(
            taken.short,
            short_holds(problem, &above, case.period),
            "{nodes}"
        );
        assert_eq!(taken.units, case.expected_units(), "{nodes}");
        let counted = usize::from(case.count.is_some());
        seen[counted][usize::from(taken.short)] += 1;
        let all = case.count.unwrap_or(usize::MAX).min(case.open().len());
        early[counted] += usize::from(taken.units < all);
    }
    assert!(
        seen.iter().flatten().all(|&times| times > 1_000),
        "{seen:?}"
    );
    assert!(early.iter().all(|&times| times > 1_000), "{early:?}");
}

#[test]
fn small_problems_against_trees() {
    let mut random = Random::new(71);
    let (mut held, mut refused) = (0, 0);
    for _ in 0..5_000 {
        let case = Case::new(&mut random);
        let text = tree(1, &case.nodes());
        let short_line = text.lines().position(|line| line.starts_with("short="));
        match lodge(&mut case.docket.clone(), text.as_bytes()) {
            Answer::Held(Figures::Tree { .. }) => {
                assert!(case.taken().short, "{text}");
                held += 1;
            }
            answer => {
                assert_eq!(answer, at_line(33, short_line.unwrap() + 1), "{text}");
                assert!(!case.taken().short, "{text}");
                refused += 1;
            }
        }
    }
    assert!(held > 500 && refused > 500, "{held} {refused}");
}
