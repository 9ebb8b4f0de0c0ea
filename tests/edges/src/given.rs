//! The dockets of the orders, also those that no lodging makes.

use crate::desk::{number, parted};
use crate::show::Shown;
use second::{fresh, lodge, Answer, Docket};

/// A docket that lodging made, or one that none makes and that the second implementation's type cannot hold. The latter is to be taken for
/// a fresh one, and a refused text leaves the value that was given, of which is kept what is shown of it (docs/DECISIONS.md, 31).
#[derive(Clone)]
pub enum Given {
    Made(Docket),
    Set(Shown),
}

impl Default for Given {
    fn default() -> Self {
        Given::Made(fresh())
    }
}

impl Given {
    /// The docket by which texts are judged, and reports and questions about units answered.
    pub fn judged(&self) -> Docket {
        match self {
            Given::Made(docket) => docket.clone(),
            Given::Set(_) => fresh(),
        }
    }

    /// Lodges the text.
    pub fn lodge(&mut self, text: &[u8]) -> Answer {
        let mut docket = self.judged();
        let answer = lodge(&mut docket, text);
        match self {
            Given::Set(_) if matches!(answer, Answer::Refused(_)) => assert_eq!(docket, fresh()),
            _ => *self = Given::Made(docket),
        }
        answer
    }

    /// What the docket holds.
    pub fn shown(&self) -> Shown {
        match self {
            Given::Made(docket) => Shown::of(docket),
            Given::Set(shown) => shown.clone(),
        }
    }

    /// The docket with one field changed.
    pub fn set(self, rest: &str) -> Option<Given> {
        let mut shown = self.shown();
        let (field, values) = parted(rest);
        let (first, second) = parted(values);
        match field {
            "known" if values == "0" || values == "1" => shown.known = values == "1",
            "periods" => shown.periods = number(values)?,
            "outputs" => shown.outputs = [i64::from(number::<u16>(values)?); 5],
            "cost" => {
                shown.cost = Some(format!(
                    "{},{}",
                    number::<u64>(first)?,
                    number::<u64>(second)?
                ))
            }
            "bound" => {
                shown.bound = Some(format!(
                    "{},{}",
                    number::<i64>(first)?,
                    number::<u64>(second)?
                ))
            }
            _ => return None,
        }
        Some(Given::Set(shown))
    }
}
