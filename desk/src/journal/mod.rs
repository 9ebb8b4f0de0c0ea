//! The journal: the texts that were lodged, in their order, with the answers given, in one file that only grows. The texts
//! decide everything that a docket holds, so that the journal is the docket: opening it lodges them again.
//!
//! The file is a first line, and two records for each text:
//!
//! ```text
//! docket journal 1 rules 4 CHECK
//! text LENGTH SECONDS SUM CHECK
//! the text's bytes, LENGTH of them, and byte 10
//! answer ANSWER CHECK
//! ```
//!
//! SECONDS is when it was lodged, since 1970; SUM is the SHA-256 of the text; ANSWER is what stands behind `answer=` in the
//! docket's line. A CHECK stands behind the words of its line, after a space, and is the SHA-256 of the check before it, a space
//! and those words; that of the first line is the SHA-256 of its words alone. So a record that is changed, left out or moved
//! shows, the last check stands for all that came before it, and a length is sure before it is used: only an end that is missing
//! is taken for a write that was cut short, and never a byte that changed in a record.

pub mod disk;
mod lines;
mod read;
mod records;
mod write;

pub use disk::{Disk, OnDisk};
pub use lines::{First, Opening, FORMAT};
pub use read::{read, replayed, replayed_with, Answered, Reading};
pub use records::{Records, Step};
pub use write::{Journal, Lodged, Mended};
