//! Questions about the units taken, put to the archive's call with any bytes for statuses: 20,000 generated ones against the second
//! implementation, and those that the call must not answer. SEED repeats the questions of a printed seed.

use crate::sys;
use crate::{Docket, Fixed, UnitsTaken};
use second::inputs::problems;
use second::inputs::random::Random;
use second::problem::Problem;
use second::{capacity_taken, TakenAnswer};
use std::collections::BTreeMap;
use std::env;
use std::time::{SystemTime, UNIX_EPOCH};

const PROBLEMS: u64 = 2_000;
const QUESTIONS: u64 = 10;

/// What stands in the numbers lent for an answer before a call.
pub const PAINT: u64 = 0xA5A5_A5A5_A5A5_A5A5;

/// The state of a docket.
#[derive(Clone, PartialEq, Debug)]
pub struct State {
    pub numbers: Vec<u64>,
    pub rows: Vec<u16>,
}

/// Period and upper count as the call takes them, and a byte for each status.
#[derive(Clone, Debug)]
struct Question {
    period: usize,
    most: usize,
    fixed: Vec<u8>,
}

impl State {
    /// The state of a docket after some texts.
    pub fn after(texts: &[&[u8]]) -> State {
        let mut numbers = vec![0; sys::docket_numbers()];
        let mut rows = vec![0; sys::docket_rows()];
        assert_eq!(sys::fresh(&mut numbers, &mut rows), 0);
        let (mut line, mut values) = ([0; sys::LINE_BYTES], [0; sys::VALUES]);
        for text in texts {
            sys::lodge(&mut numbers, &mut rows, text, &mut line, &mut values);
            assert_eq!(values[0], sys::HELD);
        }
        State { numbers, rows }
    }

    /// What the call answers, and so many numbers lent to it, painted before.
    fn ask(&self, question: &Question, lent: usize) -> (usize, Vec<u64>) {
        let mut taken = vec![PAINT; lent];
        let Question {
            period,
            most,
            fixed,
        } = question;
        let answer = sys::units_taken(&self.numbers, &self.rows, *period, *most, fixed, &mut taken);
        (answer, taken)
    }
}

/// The seed given, or one of the clock.
pub fn seed() -> u64 {
    let given = env::var("SEED").ok();
    let given = given.map(|seed| seed.parse().expect("SEED is a number"));
    let now = || SystemTime::now().duration_since(UNIX_EPOCH);
    given.unwrap_or_else(|| now().expect("a clock after 1970").as_secs())
}

/// One of the numbers that are more than this one, often close to it, or close to it by their last bits.
fn above(random: &mut Random, number: usize) -> usize {
    let farther = [1, 2, 256, 1 << 16, 1 << 32, 1 << 63];
    match random.below(4) {
        0 => usize::MAX - random.below(3),
        1 => number + 1,
        _ => number + random.pick(&farther),
    }
}

/// Statuses for so many places; mostly free, mostly off, or any.
fn statuses(random: &mut Random, count: usize) -> Vec<u8> {
    let off = random.below(90);
    let status = |random: &mut Random| match random.below(100) {
        chance if chance < off => 1,
        chance if chance < 95 => 0,
        _ => 2,
    };
    (0..count).map(|_| status(random)).collect()
}

/// A question about a problem of so many periods and units; some do not fit it, in a way or two.
fn question(random: &mut Random, periods: usize, units: usize) -> Question {
    let mut question = Question {
        period: 1 + random.below(periods),
        most: random.below(units + 1),
        fixed: statuses(random, periods * units),
    };
    let ways = random.pick(&[0, 0, 0, 0, 0, 1, 1, 2]);
    for _ in 0..ways {
        match random.below(4) {
            0 => question.period = [0, above(random, periods)][random.below(2)],
            1 => question.most = above(random, units),
            2 => {
                let length = random.pick(&[0, 1, periods, units, 1_536, 1_537, 3_000]);
                let near = periods * units + random.below(3) - 1;
                question.fixed.resize([length, near][random.below(2)], 0);
            }
            _ => {
                let length = question.fixed.len();
                let odd = random.pick(&[3, 4, 127, 128, 254, 255]);
                if let Some(status) = question.fixed.get_mut(random.below(length)) {
                    *status = odd;
                }
            }
        }
    }
    question
}

/// What kind of question it is, for a problem or for none.
fn kind(problem: Option<&Problem>, asked: &Question, answer: TakenAnswer) -> &'static str {
    let Some(problem) = problem else {
        return "no problem";
    };
    let (periods, units) = (problem.periods(), problem.units.len());
    match answer {
        TakenAnswer::Taken(taken) => match (asked.most, taken.short) {
            (0, false) => "by number, not short",
            (0, true) => "by number, short",
            (_, false) => "largest first, not short",
            (_, true) => "largest first, short",
        },
        _ if !(1..=periods).contains(&asked.period) => "another period",
        _ if asked.most > units => "too large a count",
        _ if asked.fixed.len() != periods * units => "another number of statuses",
        _ => "a byte that is no status",
    }
}

/// The statuses that these bytes are, if all are such.
pub fn typed(bytes: &[u8]) -> Option<Vec<Fixed>> {
    let of = |byte: &u8| match byte {
        0 => Some(Fixed::Free),
        1 => Some(Fixed::Off),
        2 => Some(Fixed::On),
        _ => None,
    };
    bytes.iter().map(of).collect()
}

#[test]
fn generated_questions_get_the_second_implementations_answers() {
    let seed = seed();
    println!("seed {seed}, {} questions", PROBLEMS * QUESTIONS);
    let mut kinds = BTreeMap::new();
    for index in 0..PROBLEMS {
        let mut random = Random::for_input(seed, index);
        let (periods, units) = problems::size(&mut random);
        let text = problems::text(&problems::planted(&mut random, periods, units).problem);
        let texts = [text.as_bytes()];
        let known = if random.chance(5) { &[] } else { &texts[..] };
        let (state, mut docket, mut other) = (State::after(known), Docket::new(), second::fresh());
        for text in known {
            docket.lodge(text);
            second::lodge(&mut other, text);
        }
        let before = state.clone();
        for _ in 0..QUESTIONS {
            let asked = question(&mut random, periods, units);
            let what = format!("seed {seed}, problem {index}, {asked:?}");
            let wanted = capacity_taken(&other, asked.period, asked.most, &asked.fixed);
            let lent = 2 + random.below(4);
            let (answer, taken) = state.ask(&asked, lent);
            let mut due = vec![PAINT; lent];
            let (number, told) = match wanted {
                TakenAnswer::NoProblem => (sys::NO_PROBLEM, UnitsTaken::NoProblem),
                TakenAnswer::Unfit => (sys::UNFIT, UnitsTaken::Unfit),
                TakenAnswer::Taken(second::Taken { short, units }) => {
                    due[..2].copy_from_slice(&[u64::from(short), units as u64]);
                    (sys::TOLD, UnitsTaken::Taken { short, units })
                }
            };
            assert_eq!((answer, taken), (number, due), "{what}");
            if let Some(fixed) = typed(&asked.fixed) {
                let given = docket.units_taken(asked.period, asked.most.checked_sub(1), &fixed);
                assert_eq!(given, told, "{what}");
            }
            *kinds
                .entry(kind(other.problem(), &asked, wanted))
                .or_insert(0) += 1;
        }
        assert_eq!(state, before, "seed {seed}, problem {index}");
    }
    println!("{kinds:#?}");
    assert_eq!(kinds.len(), 9, "{kinds:?}");
    let least = PROBLEMS * QUESTIONS / 100;
    assert!(kinds.values().all(|&times| times >= least), "{kinds:?}");
}

/// A problem of two periods that need 60 and 90, and of units with pU 70 and 50; and a question that fits it.
const PROBLEM: &[u8] = b"kind=problem\nperiods=2\nunits=2\ndemand=60,80\nspare=0,10\n\
    unit=0,0,0,1,70,1,1,-1,1,1,0,0,0,0,0\nunit=0,0,0,1,50,1,1,-1,1,1,0,0,0,0,0\nend=problem\n";

fn fit() -> Question {
    Question {
        period: 2,
        most: 0,
        fixed: vec![0; 4],
    }
}

#[test]
fn every_byte_in_every_place_of_the_statuses() {
    let state = State::after(&[PROBLEM]);
    for at in 0..4 {
        for byte in 0..=255 {
            let mut question = fit();
            question.fixed[at] = byte;
            let due = match (byte, at) {
                (3.., _) => (sys::UNFIT, vec![PAINT; 3]),
                (1, 1 | 3) => (sys::TOLD, vec![1, 1, PAINT]),
                _ => (sys::TOLD, vec![0, 2, PAINT]),
            };
            assert_eq!(state.ask(&question, 3), due, "byte {byte} at {at}");
        }
    }
}

#[test]
fn too_little_room_comes_first_then_no_docket_then_no_problem_then_unfit() {
    let unfit = Question {
        period: 0,
        most: usize::MAX,
        fixed: vec![9; 5],
    };
    for (texts, due) in [(&[][..], sys::NO_PROBLEM), (&[PROBLEM], sys::UNFIT)] {
        let state = State::after(texts);
        assert_eq!(state.ask(&unfit, 2), (due, vec![PAINT; 2]));
        let mut none = state.clone();
        none.numbers[0] += 1;
        assert_eq!(none.ask(&unfit, 2), (usize::MAX - 1, vec![PAINT; 2]));
        assert_eq!(none.ask(&fit(), 2), (usize::MAX - 1, vec![PAINT; 2]));
        for lent in [0, 1] {
            assert_eq!(none.ask(&unfit, lent), (sys::TOO_SMALL, vec![PAINT; lent]));
            assert_eq!(state.ask(&fit(), lent), (sys::TOO_SMALL, vec![PAINT; lent]));
        }
        let (mut fewer, mut narrower) = (state.clone(), none.clone());
        fewer.numbers.pop();
        narrower.rows.pop();
        for small in [fewer, narrower] {
            assert_eq!(small.ask(&unfit, 2), (sys::TOO_SMALL, vec![PAINT; 2]));
        }
    }
}
