//! Sizes, threads and the stack.
mod common;

use common::{example, inputs, listed, lodged, output, read, repository, same};
use docket::{listing, listing_of, Error, MOST_INPUT, OUTPUT_BYTES, STACK_BYTES};
use std::path::{Path, PathBuf};
use std::thread;

/// The example, with bytes after it up to a length.
fn example_of_length(length: usize) -> Vec<u8> {
    let mut input = example();
    input.resize(length, b'x');
    input
}

#[test]
fn an_output_that_is_too_small_is_refused_and_left() {
    for length in [0, 1, 171, 65_536, OUTPUT_BYTES - 1] {
        for input in [Vec::new(), example(), example_of_length(MOST_INPUT + 1)] {
            let mut room = vec![b'?'; length];
            assert_eq!(listing(&input, &mut room), Err(Error::OutputTooSmall));
            assert!(room.iter().all(|&byte| byte == b'?'));
        }
    }
}

#[test]
fn bytes_after_the_listing_and_the_input_are_left() {
    let input = example();
    let wanted = read(&repository("examples/example.out"));
    for length in [OUTPUT_BYTES, OUTPUT_BYTES + 1, 3 * OUTPUT_BYTES] {
        let mut room = vec![b'?'; length];
        let written = listing(&input, &mut room).expect("room");
        same(&room[..written], &wanted);
        assert!(room[written..].iter().all(|&byte| byte == b'?'));
    }
    same(&input, &example());
}

#[test]
fn no_input_gives_the_report_alone() {
    let wanted = b"kind=report\ncost=none\ncostwriter=none\nbound=none\nboundwriter=none\ngap=none\nend=report\n";
    same(&listing_of(b""), wanted);
}

#[test]
fn an_input_of_65536_bytes_is_lodged() {
    let input = example_of_length(MOST_INPUT);
    let text = listing_of(&input);
    same(&text, &second::listing(&input));
    assert!(text.starts_with(b"answer=held\nanswer=held,1980\nanswer=held,1980,1,2\nanswer=refused,12,1,0,0\nkind=report\ncost=1980\n"));
}

#[test]
fn an_input_of_65537_bytes_is_not() {
    let input = example_of_length(MOST_INPUT + 1);
    let text = listing_of(&input);
    same(&text, &second::listing(&input));
    assert!(text.starts_with(b"answer=refused,11,0,0,0\nkind=report\ncost=none\n"));
    same(&text, &listing_of(&vec![0; 1 << 20]));
}

#[test]
fn as_many_texts_as_an_input_can_have() {
    let mut input = example();
    while input.len() + 5 <= MOST_INPUT {
        input.extend_from_slice(b"end=\n");
    }
    let text = listing_of(&input);
    same(&text, &second::listing(&input));
    assert!(text.len() <= OUTPUT_BYTES);
    println!("{} bytes of input, {} of listing", input.len(), text.len());
}

/// Fails where an input's listing, or the answers and the report of a docket of its own, differ from the committed listing.
fn gives_the_committed_listing(path: &Path, room: &mut [u8]) {
    let input = read(path);
    let wanted = read(&path.with_extension("out"));
    same(&listed(&input, room), &wanted);
    if let Some(lines) = lodged(&input) {
        same(&lines, &wanted);
    }
}

#[test]
fn threads_at_once_give_the_same() {
    let paths: Vec<PathBuf> = inputs("tests/corpus").into_iter().step_by(4).collect();
    thread::scope(|scope| {
        for first in 0..8 {
            let paths = &paths;
            scope.spawn(move || {
                let mut room = output();
                for k in 0..paths.len() {
                    let path = &paths[(first * 16 + k) % paths.len()];
                    gives_the_committed_listing(path, &mut room);
                }
            });
        }
    });
}

#[test]
fn the_stack_named_is_enough_for_the_deepest_trees() {
    let deep: Vec<_> = inputs("tests/corpus")
        .into_iter()
        .filter(|path| path.display().to_string().contains("64"))
        .collect();
    assert!(deep.len() >= 4);
    let kept = 65_536; // for the thread itself and the frames above the call
    let run = move || {
        let mut room = output();
        for path in &deep {
            gives_the_committed_listing(path, &mut room);
        }
    };
    thread::Builder::new()
        .stack_size(STACK_BYTES + kept)
        .spawn(run)
        .expect("a thread")
        .join()
        .expect("the listings");
}
