//! The least value of a unit and `stuck` against every run and every output on small horizons, and
//! bounds against every schedule of small problems. The rules are put here in another way: whole
//! stretches of a status are measured.

use second::generator::Generator;
use second::inputs::problems::{planted, small_unit, text, with_initial_output};
use second::inputs::random::Random;
use second::inputs::trees;
use second::minimum::{best_output_value, is_stuck, least_value, Worth};
use second::problem::Problem;
use second::{fresh, lodge, Answer, Bound, Figures};

/// The stretches of a unit's history and row: status and length, the one before period 1 first.
fn stretches(unit: &Generator, row: &[i64]) -> Vec<(bool, i64)> {
    let mut stretches = vec![(unit.initial > 0, unit.initial.abs())];
    for &output in row {
        let last = stretches.len() - 1;
        if stretches[last].0 == (output > 0) {
            stretches[last].1 += 1;
        } else {
            stretches.push((output > 0, 1));
        }
    }
    stretches
}

/// Every stretch but the last, which the horizon cuts, is long enough.
fn obeys_times(unit: &Generator, row: &[i64]) -> bool {
    let stretches = stretches(unit, row);
    let ended = &stretches[..stretches.len() - 1];
    ended.iter().all(|&(on, length)| {
        if on {
            length >= unit.least_up
        } else {
            length >= unit.least_down
        }
    })
}

fn cost(unit: &Generator, row: &[i64]) -> i64 {
    let mut cost = 0;
    for &output in row.iter().filter(|&&output| output > 0) {
        cost += unit.fixed_cost;
        cost += unit.linear_cost * output;
        cost += unit.square_cost * output.pow(2);
    }
    for pair in stretches(unit, row).windows(2) {
        let (on, length) = pair[0];
        if on {
            cost += unit.stop;
        } else if length > unit.least_down + unit.hot_periods {
            cost += unit.cold_start;
        } else {
            cost += unit.hot_start;
        }
    }
    cost
}

/// All rows of outputs, each 0 or from pL to pU.
fn all_rows(unit: &Generator, periods: usize) -> Vec<Vec<i64>> {
    let mut rows = vec![Vec::new()];
    for _ in 0..periods {
        let mut longer = Vec::new();
        for row in &rows {
            for output in std::iter::once(0).chain(unit.least_output..=unit.most_output) {
                let mut next: Vec<i64> = row.clone();
                next.push(output);
                longer.push(next);
            }
        }
        rows = longer;
    }
    rows
}

fn least_by_trying(
    unit: &Generator,
    fixed: &[Option<bool>],
    prices: &[i64],
    reserves: &[i64],
) -> Option<i64> {
    let mut least = None;
    for row in all_rows(unit, fixed.len()) {
        let agrees = row
            .iter()
            .zip(fixed)
            .all(|(&output, status)| status.is_none() || *status == Some(output > 0));
        if !agrees || !obeys_times(unit, &row) {
            continue;
        }
        let mut value = cost(unit, &row);
        for (period, &output) in row.iter().enumerate() {
            if output > 0 {
                value -= prices[period] * output + reserves[period] * unit.most_output;
            }
        }
        least = Some(least.map_or(value, |held: i64| held.min(value)));
    }
    least
}

fn tiny_unit(random: &mut Random) -> Generator {
    let mut unit = small_unit(random);
    unit.least_output = random.between(1, 3);
    unit.most_output = unit.least_output + random.between(0, 3);
    if random.chance(10) {
        unit.initial = random.pick(&[1_000, -1_000]);
    }
    with_initial_output(random, unit)
}

fn fixed_statuses(random: &mut Random, periods: usize) -> Vec<Option<bool>> {
    let percent = random.pick(&[0, 30, 70]);
    (0..periods)
        .map(|_| random.chance(percent).then(|| random.chance(50)))
        .collect()
}

#[test]
fn least_value_and_stuck_agree_with_every_run_and_output() {
    let mut random = Random::new(20);
    let mut stuck = 0;
    for _ in 0..6_000 {
        let unit = tiny_unit(&mut random);
        let periods = random.between(1, 4) as usize;
        let fixed = fixed_statuses(&mut random, periods);
        let high = random.pick(&[4, 20, 40]);
        let prices: Vec<i64> = (0..periods).map(|_| random.between(0, high)).collect();
        let reserves: Vec<i64> = (0..periods).map(|_| random.between(0, 6)).collect();
        let worths: Vec<Worth> = prices
            .iter()
            .zip(&reserves)
            .map(|(&price, reserve)| Worth {
                off: 0,
                on: best_output_value(&unit, price) - reserve * unit.most_output,
            })
            .collect();
        let tried = least_by_trying(&unit, &fixed, &prices, &reserves);
        assert_eq!(
            least_value(&unit, &fixed, &worths),
            tried,
            "{unit:?} {fixed:?}"
        );
        assert_eq!(is_stuck(&unit, &fixed), tried.is_none());
        stuck += usize::from(tried.is_none());
    }
    assert!(stuck > 300, "only {stuck} stuck");
}

/// Statuses alone, on a longer horizon.
#[test]
fn stuck_agrees_with_every_run_of_ten_periods() {
    let mut random = Random::new(21);
    for _ in 0..400 {
        let mut unit = tiny_unit(&mut random);
        unit.least_up = random.between(1, 6);
        unit.least_down = random.between(1, 6);
        let fixed = fixed_statuses(&mut random, 10);
        let possible = (0..1024).any(|bits: i64| {
            let row: Vec<i64> = (0..10).map(|period| bits >> period & 1).collect();
            let agrees = row
                .iter()
                .zip(&fixed)
                .all(|(&output, status)| status.is_none() || *status == Some(output > 0));
            agrees && obeys_times(&unit, &row)
        });
        assert_eq!(is_stuck(&unit, &fixed), !possible, "{unit:?} {fixed:?}");
    }
}

#[test]
fn best_output_is_none_of_the_wrong_turns() {
    let mut unit = small_unit(&mut Random::new(1));
    unit.fixed_cost = 0;
    unit.linear_cost = 10;
    unit.least_output = 3;
    unit.most_output = 9;
    // c = 0: the value is (10 - q)·p, so one of the limits is best.
    unit.square_cost = 0;
    assert_eq!(best_output_value(&unit, 9), 3);
    assert_eq!(best_output_value(&unit, 10), 0);
    assert_eq!(best_output_value(&unit, 11), -9);
    // c = 2, q = 33: (q - b) / 2c is 5.75; 5 gives 50 - 115 = -65 and 6 gives 72 - 138 = -66.
    unit.square_cost = 2;
    assert_eq!(best_output_value(&unit, 33), -66);
    // Far below pL and far above pU the limits are best.
    assert_eq!(best_output_value(&unit, 0), 18 + 30);
    assert_eq!(best_output_value(&unit, 1_000), 162 - 990 * 9);
}

/// All schedules of a problem that meet the rules, by the least of their costs.
fn least_cost(problem: &Problem) -> Option<i64> {
    let mut least = None;
    let mut rows: Vec<Vec<i64>> = Vec::new();
    try_units(problem, &mut rows, 0, &mut least);
    least
}

fn try_units(problem: &Problem, rows: &mut Vec<Vec<i64>>, paid: i64, least: &mut Option<i64>) {
    if rows.len() == problem.units.len() {
        if meets_needs(problem, rows) {
            *least = Some(least.map_or(paid, |held| held.min(paid)));
        }
        return;
    }
    let unit = &problem.units[rows.len()];
    for row in all_rows(unit, problem.periods()) {
        if obeys_times(unit, &row) && obeys_ramps(unit, &row) {
            let now = paid + cost(unit, &row);
            rows.push(row);
            try_units(problem, rows, now, least);
            rows.pop();
        }
    }
}

/// Of two outputs in turn, p0 and the first among them, none above 0 is too far from the other.
fn obeys_ramps(unit: &Generator, row: &[i64]) -> bool {
    let outputs = [&[unit.initial_output], row].concat();
    outputs.windows(2).all(|pair| {
        let step = pair[1] - pair[0];
        pair.contains(&0) || (step <= unit.most_rise && -step <= unit.most_fall)
    })
}

fn meets_needs(problem: &Problem, rows: &[Vec<i64>]) -> bool {
    (0..problem.periods()).all(|period| {
        let mut output = 0;
        let mut capacity = 0;
        for (unit, row) in problem.units.iter().zip(rows) {
            output += row[period];
            capacity += if row[period] > 0 { unit.most_output } else { 0 };
        }
        output >= problem.demand[period]
            && capacity >= problem.demand[period] + problem.spare[period]
    })
}

/// No schedule costs less than a bound, and there is none under `never` (demand 3).
#[test]
fn no_schedule_beats_a_bound() {
    let mut random = Random::new(22);
    let (mut numbers, mut nevers, mut reached) = (0, 0, 0);
    let (mut counted_numbers, mut counted_nevers) = (0, 0);
    for _ in 0..250 {
        let (periods, units) = random.pick(&[(1, 1), (2, 2), (3, 2), (2, 3), (4, 1)]);
        let mut problem = planted(&mut random, periods, units).problem;
        for unit in &mut problem.units {
            *unit = tiny_unit(&mut random);
        }
        for period in 0..periods {
            problem.demand[period] = random.between(0, 4 * units as i64);
            problem.spare[period] = random.between(0, 3);
        }
        let least = least_cost(&problem);
        let mut docket = fresh();
        lodge(&mut docket, text(&problem).as_bytes());
        for _ in 0..40 {
            let tree = trees::text(&mut random, &problem, 1);
            let counted = usize::from(tree.contains("count="));
            let (Answer::Held(figures) | Answer::Passed(figures)) =
                lodge(&mut docket, tree.as_bytes())
            else {
                continue;
            };
            match (figures, least) {
                (
                    Figures::Tree {
                        bound: Bound::Never,
                        ..
                    },
                    least,
                ) => {
                    nevers += 1;
                    counted_nevers += counted;
                    assert_eq!(least, None, "{tree}");
                }
                (
                    Figures::Tree {
                        bound: Bound::Number(bound),
                        ..
                    },
                    Some(least),
                ) => {
                    numbers += 1;
                    counted_numbers += counted;
                    reached += usize::from(bound == least);
                    assert!(bound <= least, "{bound} above {least}\n{tree}");
                }
                _ => {}
            }
        }
    }
    assert!(
        numbers > 2_000 && nevers > 100 && reached > 20,
        "{numbers} {nevers} {reached}"
    );
    assert!(
        counted_numbers > 500 && counted_nevers > 100,
        "{counted_numbers} {counted_nevers}"
    );
}
