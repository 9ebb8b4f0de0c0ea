//! What a docket holds, told.

use crate::bound::Bound;
use std::fmt;
use std::str::FromStr;

/// The report of a docket: its text of seven lines, and the figures that the text shows.
///
/// ```
/// use docket::{Bound, Docket};
///
/// let mut docket = Docket::new();
/// assert_eq!(docket.report().cost(), None);
///
/// docket.lodge(b"kind=problem\nperiods=1\nunits=1\ndemand=5\nspare=0\n\
///                unit=100,10,0,1,9,1,1,1,9,9,0,0,0,0,5\nend=problem\n");
/// docket.lodge(b"kind=schedule\nwriter=7\nrun=5\nend=schedule\n");
/// docket.lodge(b"kind=tree\nwriter=3\nprice=21\nreserve=0\nend=tree\n");
/// let report = docket.report();
/// assert_eq!((report.cost(), report.cost_writer()), (Some(150), Some(7)));
/// assert_eq!((report.bound(), report.bound_writer()), (Some(Bound::Number(105)), Some(3)));
/// assert_eq!(report.gap(), Some(45));
/// assert!(report.text().starts_with("kind=report\ncost=150\ncostwriter=7\nbound=105\n"));
/// ```
#[derive(Clone, Debug, PartialEq, Eq, Hash)]
#[non_exhaustive]
pub struct Report {
    text: String,
    cost: Option<u64>,
    cost_writer: Option<u16>,
    bound: Option<Bound>,
    bound_writer: Option<u16>,
    gap: Option<i64>,
}

impl Report {
    /// The report with this text. A figure that the text does not show is `None`.
    pub(crate) fn of(text: &[u8]) -> Report {
        let text = String::from_utf8_lossy(text).into_owned();
        Report {
            cost: number(&text, "cost="),
            cost_writer: number(&text, "costwriter="),
            bound: match value(&text, "bound=") {
                Some("never") => Some(Bound::Never),
                _ => number(&text, "bound=").map(Bound::Number),
            },
            bound_writer: number(&text, "boundwriter="),
            gap: number(&text, "gap="),
            text,
        }
    }

    /// The seven lines, each ended by byte 10.
    pub fn text(&self) -> &str {
        &self.text
    }

    /// The cost of the held schedule; `None` where none is held.
    pub fn cost(&self) -> Option<u64> {
        self.cost
    }

    /// The writer of the held schedule; `None` where none is held.
    pub fn cost_writer(&self) -> Option<u16> {
        self.cost_writer
    }

    /// The held bound; `None` where none is held.
    pub fn bound(&self) -> Option<Bound> {
        self.bound
    }

    /// The writer of the held bound; `None` where none is held.
    pub fn bound_writer(&self) -> Option<u16> {
        self.bound_writer
    }

    /// The held cost minus the held bound; `None` unless both are numbers.
    pub fn gap(&self) -> Option<i64> {
        self.gap
    }
}

/// The text.
impl fmt::Display for Report {
    fn fmt(&self, f: &mut fmt::Formatter) -> fmt::Result {
        f.write_str(&self.text)
    }
}

/// What follows the key, in the first line that begins with it.
fn value<'a>(text: &'a str, key: &str) -> Option<&'a str> {
    text.lines().find_map(|line| line.strip_prefix(key))
}

/// The number that follows the key, if a number of this type does.
fn number<T: FromStr>(text: &str, key: &str) -> Option<T> {
    value(text, key)?.parse().ok()
}

#[cfg(test)]
mod tests {
    use super::{Bound, Report};

    const TEXT: &[u8] =
        b"kind=report\ncost=1980\ncostwriter=7\nbound=-30\nboundwriter=3\ngap=2010\nend=report\n";

    fn figures(report: &Report) -> (Option<u64>, Option<Bound>, Option<i64>) {
        (report.cost, report.bound, report.gap)
    }

    #[test]
    fn a_text_that_shows_no_figure_gives_none() {
        let shown = (Some(1980), Some(Bound::Number(-30)), Some(2010));
        assert_eq!(figures(&Report::of(TEXT)), shown);
        for text in [
            &b""[..],
            b"cost=",
            b"cost\nbound\ngap",
            b"cost=18446744073709551616\nbound=Never\ngap=1e3\n",
            b"\xff\xfe=\n=\n\0",
        ] {
            assert_eq!(figures(&Report::of(text)), (None, None, None));
        }
    }

    #[test]
    fn no_text_stops_the_reading() {
        for at in 0..TEXT.len() {
            Report::of(&TEXT[..at]);
            for byte in 0..=255 {
                let mut text = TEXT.to_vec();
                text[at] = byte;
                Report::of(&text);
            }
        }
    }
}
