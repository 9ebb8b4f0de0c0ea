//! The two programs as they are run.

use std::io::Write;
use std::process::{Command, Output, Stdio};

use second::inputs::input;
use second::listing;

fn listed(input: &[u8]) -> Output {
    let mut program = Command::new(env!("CARGO_BIN_EXE_second"))
        .stdin(Stdio::piped())
        .stdout(Stdio::piped())
        .spawn()
        .expect("the listing program starts");
    // The program may stop reading before all is written.
    let _ = program.stdin.take().unwrap().write_all(input);
    program.wait_with_output().expect("the program ends")
}

#[test]
fn the_program_prints_what_the_function_gives() {
    for index in 0..30 {
        let input = input(4, index);
        let output = listed(&input);
        assert!(output.status.success());
        assert_eq!(output.stdout, listing(&input));
    }
}

#[test]
fn the_program_reads_one_byte_more_than_it_takes() {
    for length in [65_535, 65_536, 65_537, 65_538, 3_000_000] {
        let input = vec![b'x'; length];
        assert_eq!(listed(&input).stdout, listing(&input), "{length}");
    }
}

#[test]
fn a_seed_gives_the_same_inputs_again() {
    for index in 0..50 {
        assert_eq!(input(9, index), input(9, index));
        assert_ne!(input(9, index), input(10, index));
    }
}

#[test]
fn five_hundred_inputs_bring_every_kind_of_answer() {
    let output = Command::new(env!("CARGO_BIN_EXE_generate"))
        .args(["3", "500"])
        .output()
        .expect("the generator starts");
    assert!(output.status.success(), "{output:?}");
}
