//! What is timed: the listing of an input on bytes, and its pieces lodged in turn.

extern "C" {
    fn docket_listing(input: *const u8, n: usize, output: *mut u8, room: usize) -> usize;

    fn bench_lodge_list(
        s: *const u8,
        n: usize,
        out: *mut u64,
        outs: usize,
        bounds: *mut i64,
        count: usize,
    ) -> usize;
}

/// Writes into the room, and answers how many bytes the listing has or how many pieces there are.
pub type Entry = fn(&[u8], &mut Room) -> usize;

/// The proved library's, the peer's, and the peer's with a walk over all states of a unit.
pub const LISTINGS: [Entry; 3] = [proved_listing, peer_listing::<false>, peer_listing::<true>];
pub const LODGINGS: [Entry; 3] = [proved_lodging, peer_lodging::<false>, peer_lodging::<true>];

const LISTING_ROOM: usize = 1_048_576;
const SHORTEST_PIECE: usize = 5;

/// Room for a listing; and for four numbers and a bound for each piece.
#[derive(PartialEq, Eq)]
pub struct Room {
    pub listing: Vec<u8>,
    pub numbers: Vec<u64>,
    pub bounds: Vec<i64>,
}

impl Room {
    pub fn for_input(input: &[u8]) -> Room {
        let pieces = input.len() / SHORTEST_PIECE + 1;
        Room {
            listing: vec![0; LISTING_ROOM],
            numbers: vec![0; pieces * 4],
            bounds: vec![0; pieces],
        }
    }
}

fn proved_listing(input: &[u8], room: &mut Room) -> usize {
    let output = &mut room.listing;
    unsafe {
        docket_listing(
            input.as_ptr(),
            input.len(),
            output.as_mut_ptr(),
            output.len(),
        )
    }
}

fn peer_listing<const ALL: bool>(input: &[u8], room: &mut Room) -> usize {
    peer::listing::<ALL>(input, &mut room.listing)
}

fn proved_lodging(input: &[u8], room: &mut Room) -> usize {
    let (out, bounds) = (&mut room.numbers, &mut room.bounds);
    unsafe {
        bench_lodge_list(
            input.as_ptr(),
            input.len(),
            out.as_mut_ptr(),
            out.len(),
            bounds.as_mut_ptr(),
            bounds.len(),
        )
    }
}

fn peer_lodging<const ALL: bool>(input: &[u8], room: &mut Room) -> usize {
    peer::lodge_list::<ALL>(input, &mut room.numbers, &mut room.bounds)
}
