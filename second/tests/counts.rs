//! Trees with counts on small problems against every set of units that may be on. The rules are put
//! here in another way: the lines above a leaf are kept as they come, and `crowd` and `short` are
//! looked for among all sets of units.

mod common;

use common::{at_line, held_problem};
use second::generator::Generator;
use second::inputs::problems::{small_unit, text, with_initial_output};
use second::inputs::random::Random;
use second::inputs::trees;
use second::leaf::stuck_holds;
use second::problem::Problem;
use second::{fresh, lodge, Answer, Bound, Docket, Figures};

/// One line above a leaf, read on the leaf's side of it. Units and periods count from 0.
#[derive(Clone, Copy, Debug, PartialEq)]
enum Said {
    /// The unit is off or on in the period.
    Status(usize, usize, bool),
    AtMost(usize, usize),
    AtLeast(usize, usize),
}

/// Whether a set of units on in a period agrees with a line.
fn agrees(said: Said, period: usize, on: &[bool]) -> bool {
    let count = on.iter().filter(|&&on| on).count();
    match said {
        Said::Status(unit, of, status) => of != period || on[unit] == status,
        Said::AtMost(of, most) => of != period || count <= most,
        Said::AtLeast(of, least) => of != period || count >= least,
    }
}

/// All sets of the problem's units.
fn all_sets(problem: &Problem) -> Vec<Vec<bool>> {
    let count = problem.units.len();
    (0..1 << count)
        .map(|bits: usize| (0..count).map(|unit| bits >> unit & 1 == 1).collect())
        .collect()
}

/// `crowd`: no set of units agrees with all that is said of the period.
fn is_crowded(problem: &Problem, above: &[Said], period: usize) -> bool {
    let mut sets = all_sets(problem).into_iter();
    !sets.any(|on| above.iter().all(|&said| agrees(said, period, &on)))
}

/// `short`: no set of units that leaves out those fixed off, and is no larger than it may be, gives
/// D + R.
fn is_short(problem: &Problem, above: &[Said], period: usize) -> bool {
    all_sets(problem).into_iter().all(|on| {
        let capacity: i64 = (problem.units.iter().zip(&on))
            .map(|(unit, &on)| if on { unit.most_output } else { 0 })
            .sum();
        let open = above.iter().all(|&said| match said {
            Said::Status(_, _, true) | Said::AtLeast(_, _) => true,
            _ => agrees(said, period, &on),
        });
        !open || capacity < problem.demand[period] + problem.spare[period]
    })
}

fn is_stuck(problem: &Problem, above: &[Said], unit: usize) -> bool {
    let mut fixed = vec![vec![None; problem.periods()]; problem.units.len()];
    for &said in above {
        if let Said::Status(unit, period, status) = said {
            fixed[unit][period] = Some(status);
        }
    }
    stuck_holds(problem, &fixed, unit)
}

#[derive(Clone, Debug, PartialEq)]
struct Leaf {
    above: Vec<Said>,
    key: String,
    /// The unit or period it names, from 0.
    names: usize,
}

/// The leaves of a tree whose lines are well-formed, or the number and line that refuse it.
fn judged(problem: &Problem, tree: &str) -> Result<Vec<Leaf>, (u32, usize)> {
    let mut leaves = Vec::new();
    // What is said above the nodes still to come, the next one last.
    let mut due = vec![Vec::new()];
    let mut lines = tree.lines().enumerate().skip(2);
    while let Some(above) = due.pop() {
        let (at, line) = lines.next().unwrap();
        let (key, values) = line.split_once('=').unwrap();
        let values: Vec<usize> = values.split(',').map(|one| one.parse().unwrap()).collect();
        let refused = |number| Err((number, at + 1));
        let mut names = values[0].wrapping_sub(1);
        match key {
            "split" => {
                let (unit, period) = (names, values[1] - 1);
                let sides = [false, true].map(|on| Said::Status(unit, period, on));
                if above.contains(&sides[0]) || above.contains(&sides[1]) {
                    return refused(31);
                }
                due.extend(
                    sides
                        .map(|side| [&above[..], &[side]].concat())
                        .into_iter()
                        .rev(),
                );
                continue;
            }
            "count" => {
                let most = values[1];
                if most >= problem.units.len() {
                    return refused(13);
                }
                let sides = [Said::AtMost(names, most), Said::AtLeast(names, most + 1)];
                // Neither side may say what is said already.
                let is_old = |side: Said| {
                    above.iter().any(|&said| match (said, side) {
                        (Said::AtMost(of, old), Said::AtMost(period, new)) => {
                            of == period && old <= new
                        }
                        (Said::AtLeast(of, old), Said::AtLeast(period, new)) => {
                            of == period && old >= new
                        }
                        _ => false,
                    })
                };
                if is_old(sides[0]) || is_old(sides[1]) {
                    return refused(37);
                }
                due.extend(
                    sides
                        .map(|side| [&above[..], &[side]].concat())
                        .into_iter()
                        .rev(),
                );
                continue;
            }
            "short" if !is_short(problem, &above, names) => return refused(33),
            "stuck" if !is_stuck(problem, &above, names) => return refused(34),
            "crowd" if !is_crowded(problem, &above, names) => return refused(36),
            "price" | "rampprice" => {
                // The lines after the first: the reserve line, and in a ramp leaf two for each unit.
                let ramped = key == "rampprice" && problem.periods() > 1;
                let more = 1 + usize::from(ramped) * 2 * problem.units.len();
                lines.nth(more - 1);
                names = 0;
                let mut units = 0..problem.units.len();
                if units.any(|unit| is_stuck(problem, &above, unit)) {
                    return Err((35, at + 1 + more));
                }
            }
            _ => {}
        }
        let key = key.to_string();
        leaves.push(Leaf { above, key, names });
    }
    Ok(leaves)
}

/// A unit of few outputs, often with the same pU as others.
fn tiny_unit(random: &mut Random) -> Generator {
    let mut unit = small_unit(random);
    unit.least_output = random.between(1, 2);
    unit.most_output = unit.least_output + random.between(0, 2);
    with_initial_output(random, unit)
}

fn tiny_problem(random: &mut Random) -> Problem {
    let (periods, units) = random.pick(&[(1, 3), (1, 4), (2, 2), (2, 3), (3, 2)]);
    let most = 3 * units as i64;
    Problem {
        demand: (0..periods).map(|_| random.between(0, most)).collect(),
        spare: (0..periods).map(|_| random.between(0, 3)).collect(),
        units: (0..units).map(|_| tiny_unit(random)).collect(),
    }
}

fn holding(problem: &Problem) -> Docket {
    let mut docket = fresh();
    assert_eq!(lodge(&mut docket, text(problem).as_bytes()), held_problem());
    docket
}

/// For each period the set of units on: all ways to have them.
fn all_statuses(problem: &Problem) -> Vec<Vec<Vec<bool>>> {
    let sets = all_sets(problem);
    let mut ways = vec![Vec::new()];
    for _ in 0..problem.periods() {
        ways = (ways.iter())
            .flat_map(|way| {
                sets.iter()
                    .map(|on| [&way[..], std::slice::from_ref(on)].concat())
            })
            .collect();
    }
    ways
}

fn lies_under(leaf: &Leaf, statuses: &[Vec<bool>]) -> bool {
    leaf.above.iter().all(|&said| {
        let mut periods = statuses.iter().enumerate();
        periods.all(|(period, on)| agrees(said, period, on))
    })
}

/// Whether these statuses meet (3) and (5) to (10).
fn statuses_may_be(problem: &Problem, statuses: &[Vec<bool>]) -> bool {
    let enough = statuses.iter().enumerate().all(|(period, on)| {
        let units = problem.units.iter().zip(on).filter(|(_, &on)| on);
        let capacity: i64 = units.map(|(unit, _)| unit.most_output).sum();
        capacity >= problem.demand[period] + problem.spare[period]
    });
    let said: Vec<Said> = (statuses.iter().enumerate())
        .flat_map(|(period, on)| {
            let units = on.iter().enumerate();
            units.map(move |(unit, &on)| Said::Status(unit, period, on))
        })
        .collect();
    enough && (0..problem.units.len()).all(|unit| !is_stuck(problem, &said, unit))
}

#[test]
fn trees_are_judged_as_all_sets_of_units_say() {
    let mut random = Random::new(60);
    let mut seen = [0; 38];
    for _ in 0..600 {
        let problem = tiny_problem(&mut random);
        let docket = holding(&problem);
        for _ in 0..20 {
            let tree = trees::text(&mut random, &problem, 1);
            let answer = lodge(&mut docket.clone(), tree.as_bytes());
            match judged(&problem, &tree) {
                Err((number, line)) => {
                    assert_eq!(answer, at_line(number, line), "{tree}");
                    seen[number as usize] += 1;
                }
                Ok(leaves) => {
                    let Answer::Held(Figures::Tree {
                        bound,
                        splits,
                        leaves: count,
                    }) = answer
                    else {
                        panic!("{answer:?}\n{tree}");
                    };
                    let forks = tree
                        .lines()
                        .filter(|line| line.starts_with("split=") || line.starts_with("count="));
                    assert_eq!(splits, forks.count(), "{tree}");
                    assert_eq!(count, leaves.len(), "{tree}");
                    assert_eq!(count, splits + 1, "{tree}");
                    let prices = leaves.iter().any(|leaf| leaf.key.ends_with("price"));
                    assert_eq!(bound == Bound::Never, !prices, "{tree}");
                    seen[0] += 1;
                }
            }
        }
    }
    for number in [0, 31, 33, 34, 35, 36, 37] {
        assert!(seen[number] > 50, "{number}: {seen:?}");
    }
}

#[test]
fn every_schedule_lies_under_one_leaf_and_under_none_that_excludes_it() {
    let mut random = Random::new(61);
    let (mut crowds, mut shorts, mut prices) = (0, 0, 0);
    for _ in 0..300 {
        let problem = tiny_problem(&mut random);
        let docket = holding(&problem);
        let ways = all_statuses(&problem);
        let possible: Vec<bool> = (ways.iter())
            .map(|statuses| statuses_may_be(&problem, statuses))
            .collect();
        for _ in 0..12 {
            let tree = trees::text(&mut random, &problem, 1);
            if let Answer::Refused(_) = lodge(&mut docket.clone(), tree.as_bytes()) {
                continue;
            }
            let leaves = judged(&problem, &tree).unwrap();
            for (statuses, &possible) in ways.iter().zip(&possible) {
                let mut under = leaves.iter().filter(|leaf| lies_under(leaf, statuses));
                let leaf = under
                    .next()
                    .unwrap_or_else(|| panic!("{statuses:?}\n{tree}"));
                assert_eq!(under.next(), None, "{statuses:?}\n{tree}");
                // No statuses at all lie under a crowd, and under short and stuck none that may be.
                assert_ne!(leaf.key, "crowd", "{statuses:?}\n{tree}");
                assert!(
                    leaf.key.ends_with("price") || !possible,
                    "{statuses:?}\n{tree}"
                );
                shorts += usize::from(leaf.key == "short");
                prices += usize::from(leaf.key.ends_with("price"));
            }
            crowds += leaves.iter().filter(|leaf| leaf.key == "crowd").count();
        }
    }
    assert!(
        crowds > 500 && shorts > 5_000 && prices > 5_000,
        "{crowds} {shorts} {prices}"
    );
}

/// A count line above a price leaf, at the root or under a split, leaves its value as it is, and 35
/// where it was.
#[test]
fn a_count_above_a_price_leaf_changes_nothing() {
    let mut random = Random::new(62);
    let (mut values, mut stuck) = (0, 0);
    for _ in 0..1_000 {
        let problem = tiny_problem(&mut random);
        let docket = holding(&problem);
        let prices: Vec<String> = (0..problem.periods())
            .map(|_| random.between(0, 20).to_string())
            .collect();
        let prices = prices.join(",");
        let leaf = format!("price={prices}\nreserve={prices}\n");
        let value = |nodes: &str| {
            let tree = format!("kind=tree\nwriter=1\n{nodes}end=tree\n");
            match lodge(&mut docket.clone(), tree.as_bytes()) {
                Answer::Held(Figures::Tree { bound, .. }) => Ok(bound),
                Answer::Refused(refusal) => Err(refusal.number),
                answer => panic!("{answer:?}\n{tree}"),
            }
        };
        let period = random.below(problem.periods()) + 1;
        let most = random.below(problem.units.len());
        let unit = random.below(problem.units.len()) + 1;
        let counted = format!("count={period},{most}\n{leaf}{leaf}");
        assert_eq!(value(&counted), value(&leaf));
        let split = format!("split={unit},{period}\n");
        let plain = value(&format!("{split}{leaf}{leaf}"));
        for sides in [[&counted, &leaf], [&leaf, &counted], [&counted, &counted]] {
            assert_eq!(value(&format!("{split}{}{}", sides[0], sides[1])), plain);
        }
        match plain {
            Ok(_) => values += 1,
            Err(number) => {
                assert_eq!(number, 35);
                stuck += 1;
            }
        }
    }
    assert!(values > 100 && stuck > 100, "{values} {stuck}");
}
