//! The example programs: the one that lodges files, and README's.
mod common;

use common::{example, read, repository, texts};
use std::env;
use std::fs;
use std::path::{Path, PathBuf};
use std::process::{Command, Output};

/// What an example program writes, given these files.
fn ran(program: &str, files: &[PathBuf]) -> Output {
    let test = env::current_exe().expect("the test's path");
    let built = test.ancestors().nth(2).expect("the folder of the build");
    let ran = Command::new(built.join("examples").join(program))
        .args(files)
        .output();
    ran.expect("the program, which cargo test builds where it is given no --test")
}

fn run(files: &[PathBuf]) -> Output {
    ran("lodge_files", files)
}

/// Each text of the example in a file of its own.
fn files(folder: &Path) -> Vec<PathBuf> {
    fs::create_dir_all(folder).expect("a folder");
    let example = example();
    let files = texts(&example).into_iter().zip(["a.txt", "b.txt", "c.txt"]);
    files
        .map(|(text, name)| {
            let path = folder.join(name);
            fs::write(&path, text).expect("a file");
            path
        })
        .collect()
}

#[test]
fn files_are_lodged_in_turn() {
    let folder = Path::new(env!("CARGO_TARGET_TMPDIR")).join("lodged");
    let output = run(&files(&folder));
    common::same(&output.stdout, &read(&repository("examples/example.out")));
    assert!(output.status.success() && output.stderr.is_empty());
}

#[test]
fn a_file_that_cannot_be_read_is_named() {
    let folder = Path::new(env!("CARGO_TARGET_TMPDIR")).join("missing");
    let mut named = files(&folder);
    named.insert(1, folder.join("none.txt"));
    let output = run(&named);
    assert_eq!(output.status.code(), Some(1));
    common::same(&output.stdout, b"answer=held\n");
    let told = String::from_utf8_lossy(&output.stderr);
    assert!(told.contains("none.txt cannot be read: "), "{told}");
}

#[test]
fn no_file_is_a_wrong_use() {
    let output = run(&[]);
    assert_eq!(output.status.code(), Some(2));
    assert!(output.stdout.is_empty());
}

#[test]
fn the_example_prints_what_the_schedule_costs_and_the_report() {
    let output = ran("example", &[]);
    let wanted = b"a schedule that costs 600\nkind=report\ncost=600\ncostwriter=7\nbound=none\nboundwriter=none\ngap=none\nend=report\n";
    common::same(&output.stdout, wanted);
    assert!(output.status.success() && output.stderr.is_empty());
}

#[test]
fn readme_shows_the_example() {
    let example = String::from_utf8(read(&repository("hosts/rust/examples/example.rs")));
    let shown: String = example
        .expect("text")
        .lines()
        .map(|line| match line {
            "" => "\n".to_string(),
            _ => format!("    {line}\n"),
        })
        .collect();
    let readme = String::from_utf8(read(&repository("README.md"))).expect("text");
    assert!(readme.contains(&format!("\n\n{shown}\n")));
}
