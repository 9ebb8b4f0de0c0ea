//! Every input of the corpus, and the example, gives its stored output byte for byte.

use std::fs;
use std::path::{Path, PathBuf};

use second::listing;

fn beside(path: &str) -> PathBuf {
    Path::new(env!("CARGO_MANIFEST_DIR")).join("..").join(path)
}

fn stored(path: &Path) -> Vec<u8> {
    fs::read(path).unwrap_or_else(|error| panic!("{}: {error}", path.display()))
}

#[test]
fn every_corpus_input_gives_its_output() {
    let mut count = 0;
    for entry in fs::read_dir(beside("tests/corpus")).expect("the corpus is there") {
        let input = entry.expect("a readable entry").path();
        if input
            .extension()
            .is_some_and(|extension| extension == "txt")
        {
            let output = stored(&input.with_extension("out"));
            assert!(listing(&stored(&input)) == output, "{}", input.display());
            count += 1;
        }
    }
    assert!(count >= 300, "only {count} inputs");
}

#[test]
fn the_example_gives_its_output() {
    let input = stored(&beside("examples/kazarlis-10.txt"));
    let output = stored(&beside("examples/kazarlis-10.out"));
    assert_eq!(listing(&input), output);
}
