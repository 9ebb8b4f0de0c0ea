//! The orders of `crates/edges/stdin`, carried out by the second implementation. That file says what orders there are.

mod desk;
mod given;
mod show;

use desk::Desk;

/// The lines that the orders print.
pub fn lines(orders: &str) -> Vec<String> {
    let mut desk = Desk::default();
    for line in orders.split_terminator('\n') {
        desk.run(line);
    }
    desk.lines
}
