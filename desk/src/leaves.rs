//! Price leaves: what a draft is made at, and how one is read out of the text of a tree.

use crate::words::{numbers_of, Node};
use docket::Fixed;

const PRICE: &str = "price";
const RAMP_PRICE: &str = "rampprice";
const SPLIT: &str = "split";

/// What a price leaf is: its multipliers, two for each period, and the statuses that are fixed above it.
#[derive(Clone, Debug, PartialEq, Eq)]
pub struct PriceLeaf {
    /// The multipliers of its `price=` line.
    pub prices: Vec<u64>,
    /// The multipliers of its `reserve=` line.
    pub reserves: Vec<u64>,
    /// The status of unit u in period t, both counted from 0, at u * T + t, T being the periods.
    pub fixed: Vec<Fixed>,
}

/// A status that is fixed: unit and period, both counted from 1.
pub type Place = (u64, u64);

/// How many leaves with prices a tree has.
#[derive(Clone, Copy, Debug, Default, PartialEq, Eq)]
pub struct Leaves {
    /// Price leaves.
    pub price: u64,
    /// Ramp leaves.
    pub ramp: u64,
}

/// A split or a count on the way from the root.
struct Fork {
    /// The status that a split fixes.
    place: Option<Place>,
    /// Whether the way goes through its second tree.
    second: bool,
}

impl PriceLeaf {
    /// A leaf with these multipliers, in a plant of so many units, above which nothing is fixed.
    pub fn free(prices: Vec<u64>, reserves: Vec<u64>, units: usize) -> PriceLeaf {
        let fixed = vec![Fixed::Free; units * prices.len()];
        PriceLeaf {
            prices,
            reserves,
            fixed,
        }
    }

    /// Fixes a status; nothing changes where the plant has no such place.
    pub fn fix(&mut self, (unit, period): Place, status: Fixed) {
        let before = |number: u64| usize::try_from(number).ok()?.checked_sub(1);
        let (Some(unit), Some(period)) = (before(unit), before(period)) else {
            return;
        };
        let mut rows = self.fixed.chunks_mut(self.prices.len().max(1));
        if let Some(fixed) = rows.nth(unit).and_then(|row| row.get_mut(period)) {
            *fixed = status;
        }
    }

    /// The places in which a status is fixed so, unit by unit.
    pub fn places(&self, status: Fixed) -> Vec<Place> {
        let periods = self.prices.len().max(1);
        let place = |at: usize| ((at / periods + 1) as u64, (at % periods + 1) as u64);
        let all = 0..self.fixed.len();
        all.filter(|&at| self.fixed[at] == status)
            .map(place)
            .collect()
    }

    /// The nth price leaf of an accepted tree, counted from 1 in the order of the lines, in a plant of so many units; or how
    /// many leaves with prices there are.
    pub fn of_tree(text: &[u8], nth: u64, units: usize) -> Result<PriceLeaf, Leaves> {
        let (mut above, mut leaves) = (Vec::new(), Leaves::default());
        let mut lines = text.split(|&byte| byte == b'\n');
        while let Some(line) = lines.next() {
            let Some(node) = Node::of(line) else {
                continue;
            };
            if node.below > 0 {
                above.push(Fork::of(&node));
                continue;
            }
            leaves.count(&node);
            if node.key == PRICE && leaves.price == nth {
                let reserves = numbers_of(lines.next().unwrap_or_default());
                return Ok(below(
                    &above,
                    PriceLeaf::free(node.numbers, reserves, units),
                ));
            }
            rise(&mut above);
        }
        Err(leaves)
    }
}

impl Leaves {
    /// Counts a leaf.
    fn count(&mut self, leaf: &Node) {
        match leaf.key {
            PRICE => self.price += 1,
            RAMP_PRICE => self.ramp += 1,
            _ => {}
        }
    }
}

impl Fork {
    fn of(node: &Node) -> Fork {
        let place = match (node.key, &node.numbers[..]) {
            (SPLIT, &[unit, period]) => Some((unit, period)),
            _ => None,
        };
        Fork {
            place,
            second: false,
        }
    }
}

/// The leaf with what is fixed on the way to it: off in the first tree of a split, on in the second.
fn below(above: &[Fork], mut leaf: PriceLeaf) -> PriceLeaf {
    for fork in above {
        let status = if fork.second { Fixed::On } else { Fixed::Off };
        if let Some(place) = fork.place {
            leaf.fix(place, status);
        }
    }
    leaf
}

/// Goes from a tree that was read to the next one: the second of the nearest fork that has it still to come.
fn rise(above: &mut Vec<Fork>) {
    while above.last().is_some_and(|fork| fork.second) {
        above.pop();
    }
    if let Some(fork) = above.last_mut() {
        fork.second = true;
    }
}

#[cfg(test)]
mod tests {
    use super::*;
    use Fixed::{Free, Off, On};

    /// Two units and two periods.
    const TREE: &str = "kind=tree\nwriter=3\nsplit=2,2\nprice=1,2\nreserve=3,4\ncount=1,1\nsplit=1,1\nshort=1\n\
                        rampprice=0,0\nreserve=0,0\nup=0\ndown=0\nup=0\ndown=0\nsplit=1,2\nprice=5,6\nreserve=7,8\n\
                        price=0,1000000000\nreserve=9,9\nend=tree\n";

    #[test]
    fn each_price_leaf_has_what_the_splits_above_it_fix() {
        let leaf = |nth| PriceLeaf::of_tree(TREE.as_bytes(), nth, 2).expect("a leaf");
        let first = leaf(1);
        assert_eq!((first.prices, first.reserves), (vec![1, 2], vec![3, 4]));
        assert_eq!(first.fixed, [Free, Free, Free, Off]);
        let second = leaf(2);
        assert_eq!(
            (&second.prices[..], &second.reserves[..]),
            (&[5, 6][..], &[7, 8][..])
        );
        assert_eq!(second.fixed, [Free, Off, Free, On]);
        assert_eq!(second.places(Off), [(1, 2)]);
        assert_eq!(second.places(On), [(2, 2)]);
        let third = leaf(3);
        assert_eq!(
            (third.prices, third.reserves),
            (vec![0, 1_000_000_000], vec![9, 9])
        );
        assert_eq!(third.fixed, [Free, On, Free, On]);
    }

    #[test]
    fn a_leaf_that_is_not_there_is_counted() {
        let wanted = Err(Leaves { price: 3, ramp: 1 });
        for nth in [0, 4, u64::MAX] {
            assert_eq!(PriceLeaf::of_tree(TREE.as_bytes(), nth, 2), wanted);
        }
        let none = PriceLeaf::of_tree(b"kind=tree\nwriter=3\nshort=1\nend=tree\n", 1, 2);
        assert_eq!(none, Err(Leaves::default()));
    }

    #[test]
    fn any_bytes_are_read_without_a_panic() {
        for text in [
            &b""[..],
            b"\n\n=\n",
            b"price=",
            b"split=\nprice=1",
            b"split=0,0\nsplit=9,99999999999999999999999\nsplit=18446744073709551615,1\nprice=1,2\nreserve=\xff",
            b"price=1\nprice=1\nprice=1",
        ] {
            for nth in 0..3 {
                let _ = PriceLeaf::of_tree(text, nth, 3);
            }
        }
    }
}
