//! Ramp leaves against every row of statuses and outputs of small units, against a walk over statuses
//! and outputs on longer horizons, and their bounds against every schedule of small problems. What
//! (11) and (12) add is put down here once more, term by term as they are printed.

mod common;

use common::*;
use second::above::Above;
use second::generator::Generator;
use second::inputs::problems::{joined, planted, small_unit, text, with_initial_output};
use second::inputs::random::Random;
use second::inputs::trees;
use second::leaf::{ramp_value, Pricing};
use second::problem::Problem;
use second::ramp::{RampLeaf, RampPrices};
use second::{lodge, Answer, Bound, Figures};

fn status(output: i64) -> i64 {
    i64::from(output > 0)
}

/// Left side less right side of (12), then of (11), for two outputs in turn.
fn differences(unit: &Generator, before: i64, now: i64) -> [i64; 2] {
    let (u_before, u_now) = (status(before), status(now));
    let (ur, dr, most) = (unit.most_rise, unit.most_fall, unit.most_output);
    [
        now - (before + ur * u_before + most * (1 - u_before)),
        (before - dr * u_before - most * (1 - u_now)) - now,
    ]
}

/// What all steps of a row add.
fn added(unit: &Generator, ramps: &RampPrices, row: &[i64]) -> i64 {
    let mut sum = 0;
    for (step, pair) in row.windows(2).enumerate() {
        let [rise, fall] = differences(unit, pair[0], pair[1]);
        sum += ramps.up[step] * rise + ramps.down[step] * fall;
    }
    sum
}

/// Starts, stops and running costs of a row, or `None` if it changes its status too soon.
fn cost(unit: &Generator, row: &[i64]) -> Option<i64> {
    let (mut on, mut spent) = (unit.initial > 0, unit.initial.abs());
    let mut cost = 0;
    for &output in row {
        if (output > 0) == on {
            spent += 1;
        } else {
            cost += change_cost(unit, on, spent)?;
            (on, spent) = (!on, 1);
        }
        if output > 0 {
            cost +=
                unit.fixed_cost + unit.linear_cost * output + unit.square_cost * output * output;
        }
    }
    Some(cost)
}

fn change_cost(unit: &Generator, on: bool, spent: i64) -> Option<i64> {
    let least = if on { unit.least_up } else { unit.least_down };
    let hot = spent <= unit.least_down + unit.hot_periods;
    match (spent >= least, on, hot) {
        (false, _, _) => None,
        (true, true, _) => Some(unit.stop),
        (true, false, true) => Some(unit.hot_start),
        (true, false, false) => Some(unit.cold_start),
    }
}

/// What the multipliers of one period pay a unit with this output.
fn paid(unit: &Generator, leaf: &RampLeaf, period: usize, output: i64) -> i64 {
    leaf.prices[period] * output + leaf.reserves[period] * unit.most_output * status(output)
}

fn outputs(unit: &Generator) -> Vec<i64> {
    let on = unit.least_output..=unit.most_output;
    std::iter::once(0).chain(on).collect()
}

fn all_rows(unit: &Generator, periods: usize) -> Vec<Vec<i64>> {
    let mut rows = vec![Vec::new()];
    for _ in 0..periods {
        let longer = rows.iter().flat_map(|row| {
            let next = outputs(unit).into_iter();
            next.map(move |output| [&row[..], &[output]].concat())
        });
        rows = longer.collect();
    }
    rows
}

fn agrees(fixed: &[Option<bool>], row: &[i64]) -> bool {
    let mut pairs = fixed.iter().zip(row);
    pairs.all(|(status, &output)| status.is_none_or(|status| status == (output > 0)))
}

/// The least over every row of one unit.
fn least_by_trying(
    generator: &Generator,
    fixed: &[Option<bool>],
    leaf: &RampLeaf,
    unit: usize,
) -> Option<i64> {
    let rows = all_rows(generator, fixed.len()).into_iter();
    let values = rows.filter(|row| agrees(fixed, row)).filter_map(|row| {
        let periods = row.iter().enumerate();
        let pay: i64 = periods
            .map(|(period, &output)| paid(generator, leaf, period, output))
            .sum();
        Some(cost(generator, &row)? + added(generator, &leaf.ramps[unit], &row) - pay)
    });
    values.min()
}

/// Over periods, q·D + s·(D + R).
fn needs(problem: &Problem, leaf: &RampLeaf) -> i64 {
    let periods = 0..problem.periods();
    periods
        .map(|period| {
            let (demand, spare) = (problem.demand[period], problem.spare[period]);
            leaf.prices[period] * demand + leaf.reserves[period] * (demand + spare)
        })
        .sum()
}

fn tiny_unit(random: &mut Random) -> Generator {
    let mut unit = small_unit(random);
    unit.least_output = random.between(1, 3);
    unit.most_output = unit.least_output + random.between(0, 3);
    unit.most_rise = random.pick(&[1, 1, 2, 4]);
    unit.most_fall = random.pick(&[1, 1, 2, 4]);
    if random.chance(10) {
        unit.initial = random.pick(&[1_000, -1_000]);
    }
    with_initial_output(random, unit)
}

fn tiny_problem(random: &mut Random, periods: usize, units: usize) -> Problem {
    let most = 3 * units as i64;
    Problem {
        demand: (0..periods).map(|_| random.between(0, most)).collect(),
        spare: (0..periods).map(|_| random.between(0, 3)).collect(),
        units: (0..units).map(|_| tiny_unit(random)).collect(),
    }
}

fn row_up_to(random: &mut Random, count: usize, most: i64) -> Vec<i64> {
    (0..count).map(|_| random.edgy(0, most)).collect()
}

fn any_leaf(random: &mut Random, problem: &Problem) -> RampLeaf {
    let periods = problem.periods();
    let high = random.pick(&[0, 3, 20, 1_000_000_000]);
    let price = random.pick(&[4, 20, 40, 1_000_000_000]);
    let percent = random.pick(&[100, 20]);
    let ramp_row = |random: &mut Random| {
        let row = row_up_to(random, periods - 1, high).into_iter();
        row.map(|multiplier| multiplier * i64::from(random.chance(percent)))
            .collect()
    };
    RampLeaf {
        prices: row_up_to(random, periods, price),
        reserves: row_up_to(random, periods, 6),
        ramps: (0..problem.units.len())
            .map(|_| RampPrices {
                up: ramp_row(random),
                down: ramp_row(random),
            })
            .collect(),
    }
}

fn without_ramps(leaf: &RampLeaf) -> RampLeaf {
    let mut leaf = leaf.clone();
    for ramps in &mut leaf.ramps {
        ramps.up.fill(0);
        ramps.down.fill(0);
    }
    leaf
}

/// The leaf with other multipliers on its ramps, changed one at a time as long as that raises its
/// value.
fn raised(random: &mut Random, problem: &Problem, leaf: &RampLeaf) -> RampLeaf {
    let fixed = Above::root(problem).fixed;
    let mut best = without_ramps(leaf);
    for _ in 0..60 * (problem.periods() - 1) {
        let mut next = best.clone();
        let ramps = &mut next.ramps[random.below(problem.units.len())];
        let row = if random.chance(50) {
            &mut ramps.up
        } else {
            &mut ramps.down
        };
        row[random.below(problem.periods() - 1)] = random.between(0, 8);
        if ramp_value(problem, &fixed, &next) > ramp_value(problem, &fixed, &best) {
            best = next;
        }
    }
    best
}

fn any_statuses(random: &mut Random, problem: &Problem) -> Vec<Vec<Option<bool>>> {
    let percent = random.pick(&[0, 30, 70]);
    let mut fixed = Above::root(problem).fixed;
    for status in fixed.iter_mut().flatten() {
        *status = random.chance(percent).then(|| random.chance(50));
    }
    fixed
}

/// The node lines of a leaf.
fn lines(leaf: &RampLeaf) -> String {
    let mut lines = format!(
        "rampprice={} reserve={}",
        joined(&leaf.prices),
        joined(&leaf.reserves)
    );
    for ramps in leaf.ramps.iter().filter(|ramps| !ramps.up.is_empty()) {
        lines += &format!(" up={} down={}", joined(&ramps.up), joined(&ramps.down));
    }
    lines
}

fn price_lines(leaf: &RampLeaf) -> String {
    let (prices, reserves) = (joined(&leaf.prices), joined(&leaf.reserves));
    format!("price={prices} reserve={reserves}")
}

#[test]
fn a_value_is_the_least_over_every_row() {
    let mut random = Random::new(70);
    let (mut stuck, mut higher) = (0, 0);
    for round in 0..3_000 {
        let (periods, units) = random.pick(&[(1, 2), (2, 2), (3, 1), (4, 1), (4, 2)]);
        let problem = tiny_problem(&mut random, periods, units);
        let fixed = any_statuses(&mut random, &problem);
        let mut leaf = any_leaf(&mut random, &problem);
        if round % 3 == 0 {
            leaf = raised(&mut random, &problem, &leaf);
        }
        let mut tried = Some(needs(&problem, &leaf));
        for (unit, generator) in problem.units.iter().enumerate() {
            let least = least_by_trying(generator, &fixed[unit], &leaf, unit);
            tried = tried.and_then(|sum| Some(sum + least?));
        }
        let value = ramp_value(&problem, &fixed, &leaf);
        assert_eq!(value, tried, "{problem:?} {fixed:?} {leaf:?}");
        stuck += usize::from(value.is_none());
        let plain = ramp_value(&problem, &fixed, &without_ramps(&leaf));
        higher += usize::from(value > plain);
    }
    assert!(stuck > 300 && higher > 20, "{stuck} {higher}");
}

/// The least for one unit by a walk over what it has been through: status, periods in it, output.
fn least_by_walking(generator: &Generator, leaf: &RampLeaf, unit: usize) -> i64 {
    let ramps = &leaf.ramps[unit];
    let mut reached = vec![(generator.initial > 0, generator.initial.abs(), 0, 0)];
    for period in 0..leaf.prices.len() {
        let mut next: std::collections::BTreeMap<(bool, i64, i64), i64> = Default::default();
        for &(on, spent, before, value) in &reached {
            for output in outputs(generator) {
                let stays = (output > 0) == on;
                let change = match stays {
                    true => Some(0),
                    false => change_cost(generator, on, spent),
                };
                let Some(change) = change else { continue };
                let mut now = value + change - paid(generator, leaf, period, output);
                now += status(output) * generator.fixed_cost + generator.linear_cost * output;
                now += generator.square_cost * output * output;
                if period > 0 {
                    let [rise, fall] = differences(generator, before, output);
                    now += ramps.up[period - 1] * rise + ramps.down[period - 1] * fall;
                }
                let state = (output > 0, if stays { spent + 1 } else { 1 }, output);
                let held = next.entry(state).or_insert(now);
                *held = now.min(*held);
            }
        }
        let states = next.into_iter();
        reached = states
            .map(|((on, spent, output), value)| (on, spent, output, value))
            .collect();
    }
    reached.iter().map(|state| state.3).min().unwrap()
}

#[test]
fn a_value_is_that_of_a_walk_over_statuses_and_outputs() {
    let mut random = Random::new(71);
    for round in 0..120 {
        let periods = if round < 100 { 10 } else { 48 };
        let problem = planted(&mut random, periods, 1).problem;
        let unit = &problem.units[0];
        if unit.most_output - unit.least_output > 60 {
            continue;
        }
        let leaf = any_leaf(&mut random, &problem);
        let walked = least_by_walking(unit, &leaf, 0) + needs(&problem, &leaf);
        let fixed = Above::root(&problem).fixed;
        assert_eq!(
            ramp_value(&problem, &fixed, &leaf),
            Some(walked),
            "{leaf:?}"
        );
    }
}

/// The same answer as the price leaf, with one period or with all ramp multipliers 0; 35 stands at
/// another line.
#[test]
fn without_multipliers_on_ramps_it_is_the_price_leaf() {
    let mut random = Random::new(72);
    for round in 0..400 {
        let periods = random.pick(&[1, 1, 2, 3, 7, 48]);
        let units = match round % 40 {
            0 => 32,
            _ => random.pick(&[1, 2, 5]),
        };
        let problem = planted(&mut random, periods, units).problem;
        let leaf = without_ramps(&any_leaf(&mut random, &problem));
        let text = text(&problem);
        let ramped = under(&text, &tree(1, &lines(&leaf)));
        assert_eq!(ramped, under(&text, &tree(1, &price_lines(&leaf))));
        assert!(matches!(ramped, Answer::Held(_)), "{ramped:?}");
        let fixed = any_statuses(&mut random, &problem);
        let priced = Pricing::of(&problem).value(&fixed, &leaf.prices, &leaf.reserves);
        assert_eq!(ramp_value(&problem, &fixed, &leaf), priced);
    }
}

/// Whether a row keeps (11) and (12) as document 01 reads them, within the horizon.
fn keeps_ramps(unit: &Generator, row: &[i64]) -> bool {
    row.windows(2).all(|pair| {
        let step = pair[1] - pair[0];
        pair.contains(&0) || (step <= unit.most_rise && -step <= unit.most_fall)
    })
}

#[test]
fn a_row_keeps_the_ramps_exactly_if_no_difference_is_above_0() {
    let mut random = Random::new(73);
    let (mut kept, mut broken) = (0, 0);
    for _ in 0..300 {
        let unit = tiny_unit(&mut random);
        for row in all_rows(&unit, 3) {
            let mut pairs = row.windows(2);
            let none_above = pairs.all(|pair| {
                let differences = differences(&unit, pair[0], pair[1]);
                differences.iter().all(|&difference| difference <= 0)
            });
            assert_eq!(none_above, keeps_ramps(&unit, &row), "{unit:?} {row:?}");
            kept += usize::from(none_above);
            broken += usize::from(!none_above);
        }
    }
    assert!(kept > 1_000 && broken > 1_000, "{kept} {broken}");
}

/// The least cost of a schedule that meets the rules, the ramp from p0 among them.
fn least_cost(problem: &Problem) -> Option<i64> {
    let rows: Vec<Vec<(Vec<i64>, i64)>> = (problem.units.iter())
        .map(|unit| {
            let rows = all_rows(unit, problem.periods()).into_iter();
            let kept = rows.filter(|row| {
                let whole = [&[unit.initial_output], &row[..]].concat();
                keeps_ramps(unit, &whole)
            });
            kept.filter_map(|row| cost(unit, &row).map(|cost| (row, cost)))
                .collect()
        })
        .collect();
    let mut least = None;
    let mut chosen = vec![0; rows.len()];
    if rows.iter().any(|rows| rows.is_empty()) {
        return None;
    }
    loop {
        let picked = chosen.iter().zip(&rows).map(|(&at, rows)| &rows[at]);
        let picked: Vec<&(Vec<i64>, i64)> = picked.collect();
        if meets_needs(problem, &picked) {
            let cost = picked.iter().map(|(_, cost)| cost).sum();
            least = Some(least.map_or(cost, |held: i64| held.min(cost)));
        }
        let Some(unit) = (0..rows.len()).find(|&unit| chosen[unit] + 1 < rows[unit].len()) else {
            return least;
        };
        chosen[unit] += 1;
        chosen[..unit].fill(0);
    }
}

fn meets_needs(problem: &Problem, rows: &[&(Vec<i64>, i64)]) -> bool {
    (0..problem.periods()).all(|period| {
        let outputs = rows.iter().map(|(row, _)| row[period]);
        let capacities = problem.units.iter().zip(outputs.clone());
        let capacity: i64 = capacities
            .map(|(unit, output)| unit.most_output * status(output))
            .sum();
        outputs.sum::<i64>() >= problem.demand[period]
            && capacity >= problem.demand[period] + problem.spare[period]
    })
}

/// No schedule costs less than the bound of a tree with ramp leaves, nor is there one under `never`.
#[test]
fn no_schedule_undercuts_a_tree_with_ramp_leaves() {
    let mut random = Random::new(74);
    let (mut ramped, mut nevers, mut above_price) = (0, 0, 0);
    for _ in 0..150 {
        let (periods, units) = random.pick(&[(1, 2), (2, 1), (2, 2), (3, 2), (4, 1)]);
        let problem = tiny_problem(&mut random, periods, units);
        let least = least_cost(&problem);
        let mut docket = holding(&text(&problem));
        for round in 0..40 {
            let mut leaf = any_leaf(&mut random, &problem);
            if round < 5 {
                leaf = raised(&mut random, &problem, &leaf);
            }
            let nodes = match round < 20 {
                true => tree(1, &lines(&leaf)),
                false => trees::ramp_text(&mut random, &problem, 1),
            };
            let (Answer::Held(figures) | Answer::Passed(figures)) =
                lodge(&mut docket, nodes.as_bytes())
            else {
                continue;
            };
            let Figures::Tree { bound, .. } = figures else {
                panic!("{figures:?}");
            };
            ramped += usize::from(nodes.contains("rampprice=") && least.is_some());
            nevers += usize::from(bound == Bound::Never);
            let no_lower = least.is_none_or(|least| bound <= Bound::Number(least));
            assert!(no_lower, "{bound} above {least:?}\n{nodes}");
            let fixed = Above::root(&problem).fixed;
            let priced = Pricing::of(&problem).value(&fixed, &leaf.prices, &leaf.reserves);
            above_price += usize::from(round < 20 && bound > Bound::Number(priced.unwrap()));
        }
    }
    assert!(
        ramped > 1_000 && nevers > 20 && above_price > 20,
        "{ramped} {nevers} {above_price}"
    );
}

/// Unit 1: on in both periods 200 - 160 - 90 - 3·p(1) - p(2), at 80 and 80 -370; on and off -225; off
/// 5 - 240. Unit 2: off in both -150; its other three runs come to -100, -110 and -100. D and R bring
/// 600 + 1400 + 220.
#[test]
fn two_units_and_two_periods_by_hand() {
    let leaf = "rampprice=10,14 reserve=0,2 up=3 down=0 up=1 down=2";
    assert_eq!(nodes(leaf), held_tree(2220 - 370 - 150, 0, 1));
}

/// On in 1 at 6 is -70, off in 2 -24 and on in 3 at 6 -62, with a stop of 5 and a hot start of 4; on
/// throughout, at 2 in period 2, comes to -133. D brings 200.
#[test]
fn one_unit_and_three_periods_by_hand() {
    let problem = one_unit(3, "10,3,1,2,6,1,1,1,2,3,4,9,0,5,4")
        .replace("demand=0,0,0", "demand=5,0,5")
        .replace("spare=0,0,0", "spare=1,0,2");
    let leaf = "rampprice=20,1,20 reserve=0,1,0 up=2,3 down=1,4";
    assert_eq!(under(&problem, &tree(1, leaf)), held_tree(53, 0, 1));
}

fn same_units(count: usize, unit: &str, need: i64) -> String {
    let needs = joined(&[need; 48]);
    let units = format!("unit={unit}\n").repeat(count);
    format!(
        "kind=problem\nperiods=48\nunits={count}\ndemand={needs}\nspare={needs}\n{units}end=problem\n"
    )
}

/// All ramp multipliers at their largest. In every step rise and fall together are -(UR + DR) for a
/// unit on before it, -pU for one off before it, and -pU for one off after it.
#[test]
fn the_largest_figures_fit() {
    let (billion, zeros) = (1_000_000_000, joined(&[0; 48]));
    let most = joined(&[billion; 47]);
    let ramps = format!(" up={most} down={most}").repeat(32);
    let free = same_units(32, "0,0,0,1,10000,1,1,-1,1,1,0,0,0,0,0", 320_000);
    let leaf = format!("rampprice={zeros} reserve={zeros}{ramps}");
    let off = -32 * 47 * 20_000 * billion;
    assert_eq!(under(&free, &tree(1, &leaf)), held_tree(off, 0, 1));
    // On throughout: the unit has to stay on. With q and s at their largest, 10,000 is best.
    let bound_to = same_units(32, "0,0,0,1,10000,48,1,1,10000,10000,0,0,0,0,1", 320_000);
    let high = joined(&[billion; 48]);
    let leaf = format!("rampprice={high} reserve={high}{ramps}");
    let on = -32 * (48 * 20_000 + 47 * 20_000) * billion;
    let needs = 48 * (320_000 + 640_000) * billion;
    // From on into the last period nothing more than UR + DR comes; off is not to be had before 48.
    assert_eq!(
        under(&bound_to, &tree(1, &leaf)),
        held_tree(on + needs, 0, 1)
    );
}
