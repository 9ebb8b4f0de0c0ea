//! Every committed input: its listing is the committed one, however it is made.
mod common;

use common::{inputs, listed, lodged, output, read, FOLDERS};

/// Fails with the inputs for which this gives another listing than the committed one; those for which it gives none are left out.
fn gives_the_committed_listings(mut give: impl FnMut(&[u8]) -> Option<Vec<u8>>) {
    let mut differ = Vec::new();
    for folder in FOLDERS {
        let mut given = 0;
        for path in inputs(folder) {
            if let Some(listing) = give(&read(&path)) {
                given += 1;
                if listing != read(&path.with_extension("out")) {
                    differ.push(path.display().to_string());
                }
            }
        }
        assert!(given > 0, "{folder} has no input");
        println!("{folder}: {given} inputs");
    }
    assert!(differ.is_empty(), "differ: {differ:#?}");
}

#[test]
fn the_listing_gives_the_committed_listings() {
    let mut room = output();
    gives_the_committed_listings(|input| Some(listed(input, &mut room)));
}

#[test]
fn texts_lodged_one_by_one_give_the_committed_listings() {
    gives_the_committed_listings(lodged);
}

#[test]
fn the_second_implementation_gives_the_committed_listings() {
    gives_the_committed_listings(|input| Some(second::listing(input)));
}
