//! What a draft is asked at, as the command line says it: multipliers and fixed statuses, or a leaf of a tree.

use crate::leaves::PriceLeaf;
use crate::options::from_1;
use crate::trouble::Trouble;
use crate::words::{brief, numbers, Plant};
use docket::Fixed;

/// The options of a draft.
#[derive(Debug, Default)]
pub struct Asked {
    /// `--price Q,..`
    price: Option<String>,
    /// `--reserve S,..`
    reserve: Option<String>,
    /// `--off U,P` and `--on U,P`
    fixed: Vec<(Fixed, String)>,
    /// `--tree N`
    tree: Option<u64>,
    /// `--leaf K`
    leaf: Option<u64>,
}

/// Where a draft's multipliers and statuses come from.
#[derive(Clone, Copy, Debug, PartialEq, Eq)]
pub enum Origin {
    /// From the command line.
    Words,
    /// From a price leaf of a tree, by the number of the tree's text and its own, both counted from 1.
    Leaf {
        /// The text's number in the journal.
        tree: u64,
        /// The leaf's number among the tree's price leaves.
        leaf: u64,
    },
}

impl Asked {
    /// Takes one of these options with its value; nothing where the name is none of theirs.
    pub fn take(&mut self, name: &str, value: &str) -> Option<Result<(), Trouble>> {
        let taken = match name {
            "--price" | "--reserve" => self.take_multipliers(name, value),
            "--off" => self.take_status(Fixed::Off, value),
            "--on" => self.take_status(Fixed::On, value),
            "--tree" => take_number(&mut self.tree, name, value, "a text"),
            "--leaf" => take_number(&mut self.leaf, name, value, "a price leaf of the tree"),
            _ => return None,
        };
        Some(taken)
    }

    fn take_multipliers(&mut self, name: &str, value: &str) -> Result<(), Trouble> {
        let (key, kept) = match name {
            "--price" => ("price", &mut self.price),
            _ => ("reserve", &mut self.reserve),
        };
        if value.is_empty() {
            let why = format!("{name} wants a multiplier for each period, as {name} 10,14");
            return Err(Trouble::usage(why));
        }
        read(name, key, value, None)?;
        once(kept, name, value.into())
    }

    fn take_status(&mut self, status: Fixed, value: &str) -> Result<(), Trouble> {
        let name = option(status);
        if value.is_empty() {
            let why = format!("{name} wants a unit and a period, both from 1, as {name} 2,1");
            return Err(Trouble::usage(why));
        }
        read(&said(status, value), "split", value, None)?;
        // numbers are written one way, so that the same place is the same value
        if let Some((other, _)) = self.fixed.iter().find(|(_, place)| place == value) {
            return Err(Trouble::usage(match *other == status {
                true => format!("{} stands twice", said(status, value)),
                false => {
                    let (one, two) = (said(*other, value), said(status, value));
                    format!("{one} and {two}: a unit is off or on in a period")
                }
            }));
        }
        self.fixed.push((status, value.into()));
        Ok(())
    }

    /// Where the draft's multipliers and statuses come from, if the options go together.
    pub fn origin(&self) -> Result<Origin, Trouble> {
        let leaf = self.leaf.unwrap_or(1);
        match (self.tree, self.multipliers()) {
            (Some(_), Some(name)) => Err(Trouble::usage(format!(
                "--tree and {name}: with --tree the leaf has the multipliers; --json shows them"
            ))),
            (Some(tree), None) => Ok(Origin::Leaf { tree, leaf }),
            (None, _) if self.leaf.is_some() => Err(Trouble::usage(
                "--leaf is a leaf of --tree, which is missing",
            )),
            (None, _) if self.price.is_none() => Err(Trouble::usage(
                "give --price, a multiplier for each period, or --tree, the number of a tree's text",
            )),
            (None, _) => Ok(Origin::Words),
        }
    }

    /// An option that gives multipliers, where one stands.
    fn multipliers(&self) -> Option<&'static str> {
        let price = self.price.as_ref().map(|_| "--price");
        let reserve = self.reserve.as_ref().map(|_| "--reserve");
        price.or(reserve)
    }

    /// The multipliers and statuses of the command line, for a plant.
    pub fn leaf(&self, plant: Plant) -> Result<PriceLeaf, Trouble> {
        let of = |name, key, value: &Option<String>| match value {
            Some(value) => read(name, key, value, Some(plant)),
            None => Ok(vec![0; plant.periods]),
        };
        let prices = of("--price", "price", &self.price)?;
        let reserves = of("--reserve", "reserve", &self.reserve)?;
        let mut leaf = PriceLeaf::free(prices, reserves, plant.units);
        self.fix(&mut leaf, plant)?;
        Ok(leaf)
    }

    /// Fixes the statuses of the command line in a leaf of a plant, besides those that it has.
    pub fn fix(&self, leaf: &mut PriceLeaf, plant: Plant) -> Result<(), Trouble> {
        for (status, value) in &self.fixed {
            let place = read(&said(*status, value), "split", value, Some(plant))?;
            let &[unit, period] = &place[..] else {
                continue;
            };
            let other = match status {
                Fixed::On => Fixed::Off,
                _ => Fixed::On,
            };
            if leaf.places(other).contains(&(unit, period)) {
                let (asked, there) = (said(*status, value), option(other).trim_start_matches('-'));
                return Err(Trouble::usage(format!(
                    "{asked}: the splits above the leaf fix unit {unit} {there} in period {period}"
                )));
            }
            leaf.fix((unit, period), *status);
        }
        Ok(())
    }
}

/// The option that fixes a status so.
fn option(status: Fixed) -> &'static str {
    match status {
        Fixed::On => "--on",
        _ => "--off",
    }
}

/// The option and its value as they are quoted.
fn said(status: Fixed, value: &str) -> String {
    format!("{} {}", option(status), brief(value.as_bytes()))
}

/// The numbers of an option's value, which is written as a line of this key has its values.
fn read(name: &str, key: &str, value: &str, plant: Option<Plant>) -> Result<Vec<u64>, Trouble> {
    numbers(key, value, plant).map_err(|why| Trouble::usage(format!("{name}: {why}")))
}

fn take_number(kept: &mut Option<u64>, name: &str, value: &str, what: &str) -> Result<(), Trouble> {
    let why = || {
        Trouble::usage(format!(
            "{name} wants the number of {what}, from 1, as {name} 2"
        ))
    };
    once(kept, name, from_1(value).ok_or_else(why)?)
}

/// Keeps the value of an option that stands once.
fn once<T>(kept: &mut Option<T>, name: &str, value: T) -> Result<(), Trouble> {
    match kept.replace(value) {
        None => Ok(()),
        Some(_) => Err(Trouble::usage(format!("{name} stands twice"))),
    }
}
