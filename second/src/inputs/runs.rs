//! Questions about the cheapest runs, made from a seed, in which many rows have the same value:
//! small ones, some of them unfit, and ones of the largest size.

use crate::generator::Generator;
use crate::inputs::problems::{self, Figures};
use crate::inputs::random::Random;
use crate::inputs::schedules::planted_rows;
use crate::problem::{Problem, MOST_PERIODS, MOST_UNITS};
use crate::tree::MOST_MULTIPLIER;

const FREE: u8 = 0;
const FIXED_OFF: u8 = 1;
const FIXED_ON: u8 = 2;

/// The text of a problem and a question that is put under it.
#[derive(Clone, Debug, PartialEq, Eq)]
pub struct RunsQuestion {
    pub problem: Vec<u8>,
    pub q: Vec<u64>,
    pub s: Vec<u64>,
    pub fixed: Vec<u8>,
}

/// The small question with this index of a seed: at most four periods, three units and six outputs of
/// each. About one in ten is unfit.
pub fn runs_question(seed: u64, index: u64) -> RunsQuestion {
    let random = &mut Random::for_input(seed, index);
    let periods = random.between(1, 4) as usize;
    let mut units: Vec<Generator> = (0..random.between(1, 3)).map(|_| unit(random)).collect();
    if units.len() > 1 && random.chance(20) {
        units[1] = units[0].clone();
    }
    if random.chance(15) {
        units = units.into_iter().map(a_thousandfold).collect();
    }
    let problem = problem_of(random, units, periods);
    let fixed = match random.below(10) {
        0..=3 => free(&problem),
        4 | 5 => as_in_a_row(random, &problem),
        6 | 7 => at_some_places(random, &problem),
        _ => at_every_place(random, &problem),
    };
    let q = prices(random, &problem.units, periods);
    let mut question = question_of(random, &problem, q, fixed);
    if random.chance(10) {
        make_unfit(random, &mut question);
    }
    question
}

/// The question of 32 units and 48 periods with this index of a seed. A quarter of the units are too
/// dear for the prices, which are made for the others; every fourth question has figures at the ends
/// of their ranges instead. Few have a stuck unit, and none is unfit.
pub fn large_runs_question(seed: u64, index: u64) -> RunsQuestion {
    let random = &mut Random::for_input(seed, index);
    let (count, periods) = (MOST_UNITS as usize, MOST_PERIODS as usize);
    let units = (0..count).map(|place| match (index % 4, place % 4) {
        (3, _) => problems::unit(random, Figures::Edges),
        (_, 0) => dear(wide_unit(random)),
        _ => wide_unit(random),
    });
    let units: Vec<Generator> = units.collect();
    let priced: Vec<Generator> = (0..count)
        .filter(|place| place % 4 != 0)
        .map(|place| units[place].clone())
        .collect();
    let q = prices(random, &priced, periods);
    let problem = problem_of(random, units, periods);
    let mut fixed = match random.chance(20) {
        true => free(&problem),
        false => as_in_a_row(random, &problem),
    };
    if random.chance(20) {
        fix_some(random, &mut fixed, 4);
    }
    question_of(random, &problem, q, fixed)
}

/// A generator of few outputs with figures so small that sums of them often come to the same.
fn unit(random: &mut Random) -> Generator {
    let least_output = random.between(1, 3);
    let hot_start = random.pick(&[0, 0, 1, 2, 5]);
    let unit = Generator {
        fixed_cost: random.pick(&[0, 0, 0, 1, 2, 4]),
        linear_cost: random.between(0, 6),
        square_cost: random.pick(&[0, 0, 0, 1, 1, 2]),
        least_output,
        most_output: least_output + random.between(0, 5),
        least_up: random.between(1, 3),
        least_down: random.between(1, 3),
        initial: random.between(1, 4) * random.pick(&[1, -1]),
        most_fall: random.between(1, 5),
        most_rise: random.between(1, 5),
        hot_start,
        cold_start: hot_start + random.pick(&[0, 0, 1, 3]),
        hot_periods: random.between(0, 2),
        stop: random.pick(&[0, 0, 1, 2, 5]),
        initial_output: 0,
    };
    problems::with_initial_output(random, unit)
}

/// The generator with all that it costs a thousand times as high.
fn a_thousandfold(unit: Generator) -> Generator {
    Generator {
        fixed_cost: unit.fixed_cost * 1_000,
        linear_cost: unit.linear_cost * 1_000,
        square_cost: unit.square_cost * 1_000,
        hot_start: unit.hot_start * 1_000,
        cold_start: unit.cold_start * 1_000,
        stop: unit.stop * 1_000,
        ..unit
    }
}

/// A generator of more outputs and of any up and down times, its figures still small. As often as not
/// it costs nothing but its output.
fn wide_unit(random: &mut Random) -> Generator {
    let least_output = random.between(1, 20);
    let share = random.pick(&[0, 1]);
    let hot_start = share * random.pick(&[0, 1, 5, 20, 100]);
    let unit = Generator {
        fixed_cost: share * random.pick(&[0, 0, 1, 5, 20, 60]),
        linear_cost: random.pick(&[1, 2, 3, 5, 8, 12]),
        square_cost: share * random.pick(&[0, 0, 0, 1, 2]),
        least_output,
        most_output: least_output + random.pick(&[0, 1, 5, 20, 60]),
        least_up: time(random),
        least_down: time(random),
        initial: initial(random),
        most_fall: random.between(1, 40),
        most_rise: random.between(1, 40),
        hot_start,
        cold_start: hot_start + share * random.pick(&[0, 0, 1, 5, 100]),
        hot_periods: time(random) - random.between(0, 1),
        stop: share * random.pick(&[0, 0, 1, 5, 50]),
        initial_output: 0,
    };
    problems::with_initial_output(random, unit)
}

/// The generator with a cost of running that hardly a price pays for.
fn dear(unit: Generator) -> Generator {
    Generator {
        fixed_cost: unit.fixed_cost + 100_000,
        ..unit
    }
}

/// A number of periods from 1 to 48, more often a small one.
fn time(random: &mut Random) -> i64 {
    match random.below(10) {
        0..=5 => random.between(1, 5),
        6..=8 => random.between(1, 24),
        _ => random.edgy(1, MOST_PERIODS),
    }
}

/// A Tini, more often one near to 0.
fn initial(random: &mut Random) -> i64 {
    let periods = match random.below(10) {
        0..=5 => random.between(1, 6),
        6..=8 => random.between(1, 100),
        _ => random.edgy(1, 1_000),
    };
    periods * random.pick(&[1, -1])
}

/// A problem of these units whose demand is often met by some of them.
fn problem_of(random: &mut Random, units: Vec<Generator>, periods: usize) -> Problem {
    let capacity: i64 = units.iter().map(|unit| unit.most_output).sum();
    let most = (capacity + 3).min(320_000);
    let demand = (0..periods).map(|_| match random.below(4) {
        0 => random.edgy(0, most),
        _ => random.between(0, most / 2),
    });
    let demand = demand.collect();
    let spare = (0..periods).map(|_| random.pick(&[0, 1, 5])).collect();
    Problem {
        demand,
        spare,
        units,
    }
}

/// Nothing fixed.
fn free(problem: &Problem) -> Vec<u8> {
    vec![FREE; problem.units.len() * problem.periods()]
}

/// Statuses of rows that obey the up and down times, fixed for some units in some periods, so that no
/// unit is stuck.
fn as_in_a_row(random: &mut Random, problem: &Problem) -> Vec<u8> {
    let often = random.pick(&[3, 10, 40]);
    let mut fixed = Vec::new();
    for row in planted_rows(random, &problem.units, problem.periods()) {
        let percent = random.pick(&[0, often]);
        for output in row {
            fixed.push(match (random.chance(percent), output) {
                (false, _) => FREE,
                (true, 0) => FIXED_OFF,
                (true, _) => FIXED_ON,
            });
        }
    }
    fixed
}

/// One to three statuses fixed.
fn at_some_places(random: &mut Random, problem: &Problem) -> Vec<u8> {
    let mut fixed = free(problem);
    let times = random.between(1, 3);
    fix_some(random, &mut fixed, times);
    fixed
}

/// So many times fixes a status as it comes.
fn fix_some(random: &mut Random, fixed: &mut [u8], times: i64) {
    for _ in 0..times {
        let place = random.below(fixed.len());
        fixed[place] = random.pick(&[FIXED_OFF, FIXED_ON]);
    }
}

/// Every status free or fixed as it comes.
fn at_every_place(random: &mut Random, problem: &Problem) -> Vec<u8> {
    let places = 0..problem.units.len() * problem.periods();
    places
        .map(|_| random.pick(&[FREE, FREE, FIXED_OFF, FIXED_ON]))
        .collect()
}

/// The question with these prices and statuses. Now and then a multiplier is the largest.
fn question_of(
    random: &mut Random,
    problem: &Problem,
    mut q: Vec<u64>,
    fixed: Vec<u8>,
) -> RunsQuestion {
    let reserves: &[u64] = random.pick(&[&[0], &[0, 0, 1, 2, 3]]);
    let mut s: Vec<u64> = q.iter().map(|_| random.pick(reserves)).collect();
    if random.chance(2) {
        let multipliers = if random.chance(50) { &mut q } else { &mut s };
        let period = random.below(multipliers.len());
        multipliers[period] = MOST_MULTIPLIER as u64;
    }
    RunsQuestion {
        problem: problems::text(problem).into_bytes(),
        q,
        s,
        fixed,
    }
}

/// For each period a price multiplier at which rows of one of the units are worth the same.
fn prices(random: &mut Random, units: &[Generator], periods: usize) -> Vec<u64> {
    let mut prices = Vec::new();
    for _ in 0..periods {
        let at = random.below(units.len());
        prices.push(price(random, &units[at]));
    }
    prices
}

/// A price multiplier for a unit: most often what one more unit of output costs, at which this and the
/// next output are worth the same, or what an output costs apiece, at which on and off are.
fn price(random: &mut Random, unit: &Generator) -> u64 {
    let output = random.between(unit.least_output, unit.most_output);
    let marginal = unit.linear_cost + unit.square_cost * (2 * output + 1);
    let price = match random.below(12) {
        0 => 0,
        1 => random.between(0, 8),
        2 | 3 => marginal + random.pick(&[-1, 1]),
        4..=6 => unit.running_cost(output) / output,
        _ => marginal,
    };
    price.clamp(0, MOST_MULTIPLIER) as u64
}

/// Spoils a question in one of the ways in which it does not go with its problem.
fn make_unfit(random: &mut Random, question: &mut RunsQuestion) {
    match random.below(8) {
        0 => spoil_length(random, &mut question.q),
        1 => spoil_length(random, &mut question.s),
        2 | 3 => spoil_length(random, &mut question.fixed),
        4 => too_large(random, &mut question.q),
        5 => too_large(random, &mut question.s),
        _ => {
            let place = random.below(question.fixed.len());
            question.fixed[place] = random.pick(&[3, 3, 4, 255]);
        }
    }
}

/// Makes a list longer or shorter, or empty.
fn spoil_length<T: Copy>(random: &mut Random, list: &mut Vec<T>) {
    match random.below(5) {
        0 => list.clear(),
        1 | 2 => list.push(list[0]),
        _ => list.truncate(list.len() - 1),
    }
}

/// Sets a multiplier to one beyond the largest, or further.
fn too_large(random: &mut Random, multipliers: &mut [u64]) {
    let period = random.below(multipliers.len());
    let beyond = MOST_MULTIPLIER as u64 + 1;
    multipliers[period] = random.pick(&[beyond, beyond, u64::MAX]);
}
