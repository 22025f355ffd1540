//! A second reading of the load, which is a map file drawn from a seed, and of what the C call answers for one, written from the request that describes
//! them (Ticket 9 of document 02).
use crate::map_cases::SQUARE;
use crate::map_file::{COUNT_BYTES, EDIT_BYTES, Edit, HEAD_BYTES, MOST_EDITS, MapFile, SHORT, bytes_of, read};
use crate::random::Random;
use crate::reading::Refused;

pub const NO_SEED: u8 = 21;
pub const TOO_MANY: u8 = 22;

/// The version and the border weight of every load. Its corners are those of document 01's sample.
const LOAD_VERSION: u8 = 1;
const LOAD_BORDER: f64 = 1.0;

/// How many points an edit may name, how many directions it may have, and how many parts a float from 0 to 1 is counted in.
pub const POINTS: u64 = 128;
pub const DIRECTIONS: u64 = 4;
pub const PARTS: u64 = 1024;

/// The draws of an edit: its point, its direction, its ratio, and the three floats of its position.
const EDIT_DRAWS: usize = 6;

/// The draw from a state, which is the seed or the draw before.
fn drawn(state: u64) -> u64 {
    let first = state ^ (state << 13);
    let second = first ^ (first >> 7);
    second ^ (second << 17)
}

/// The draws from a seed, which is none of them itself.
fn draws(seed: u64) -> impl Iterator<Item = u64> {
    std::iter::successors(Some(drawn(seed)), |draw| Some(drawn(*draw)))
}

/// The float that a draw gives, from 0 to 1, both ends included.
fn fraction(draw: u64) -> f64 {
    (draw % (PARTS + 1)) as f64 / PARTS as f64
}

fn edit_of([point, direction, ratio, x, y, z]: [u64; EDIT_DRAWS]) -> Edit {
    Edit {
        point: (point % POINTS) as u8,
        direction: (direction % DIRECTIONS) as u8,
        ratio: fraction(ratio),
        position: [x, y, z].map(fraction),
    }
}

/// So many edits, drawn from a seed.
pub fn edits_of(seed: u64, count: usize) -> Vec<Edit> {
    let mut draws = draws(seed);
    let mut next = || draws.next().expect("draws have no end");
    (0..count).map(|_| edit_of(std::array::from_fn(|_| next()))).collect()
}

/// The floats of an edit: its ratio and its position.
pub fn floats_of(edit: &Edit) -> [f64; 4] {
    let [x, y, z] = edit.position;
    [edit.ratio, x, y, z]
}

/// The length of a file of so many edits.
pub const fn file_length(count: usize) -> usize {
    COUNT_BYTES + HEAD_BYTES + EDIT_BYTES * count
}

/// A load's bytes. The reader of map files accepts them and finds the edits drawn, and every float of an edit is from 0 to 1.
fn load(seed: u64, count: usize) -> Vec<u8> {
    let edits = edits_of(seed, count);
    let file = bytes_of(&MapFile { version: LOAD_VERSION, border: LOAD_BORDER, corners: SQUARE, edits: edits.clone() });
    let found = read(&file).expect("the reader accepts every load");
    assert!(found.edits.iter().flat_map(floats_of).all(|x| (0.0..=1.0).contains(&x)), "the seed {seed} leaves 0 to 1");
    assert_eq!((found.version, found.border, found.corners, found.edits), (LOAD_VERSION, LOAD_BORDER, SQUARE, edits));
    assert_eq!(file.len(), file_length(count));
    file
}

/// What the C call answers: 21 for the seed 0, then 22 for too many edits, then 16 where the buffer is shorter than the file, else the file that it
/// writes, whose length it returns.
pub fn host_load(seed: u64, edits: u64, room: usize) -> Refused<Vec<u8>> {
    if seed == 0 {
        return Err(NO_SEED);
    }
    if edits > MOST_EDITS as u64 {
        return Err(TOO_MANY);
    }
    let file = load(seed, edits as usize);
    if room < file.len() {
        return Err(SHORT);
    }
    Ok(file)
}

/// The first draws from the seed 1, and the edit that they give. By hand, the seed's bit 0 is joined by bit 13, that by bit 6, and these three by bits
/// 17, 30 and 23, so that the first draw is 2^0 + 2^6 + 2^13 + 2^17 + 2^23 + 2^30. The others, and what is left of all modulo 128, 4 and 1,025, were worked
/// out apart from this program, by a script in Python that moves sets of bits and adds powers of two.
const DRAWS_OF_ONE: [u64; EDIT_DRAWS] =
    [1082269761, 1152992998833853505, 11177516664432764457, 17678023832001937445, 9659130143999365733, 17775799001133815809];
const EDIT_OF_ONE: Edit =
    Edit { point: 65, direction: 1, ratio: 657.0 / 1024.0, position: [445.0 / 1024.0, 233.0 / 1024.0, 59.0 / 1024.0] };

/// How many states are drawn whose draws are worked out bit by bit.
const STATES: usize = 4000;

/// A bit of the draw from a state: each step sets a bit where it and the one 13 below it, 7 above it or 17 below it are unlike. Those off the ends are 0.
fn drawn_bit(state: u64, place: i32) -> bool {
    let is_place = |place: i32| (0..u64::BITS as i32).contains(&place);
    let of_state = |place: i32| is_place(place) && state >> place & 1 == 1;
    let first = |place: i32| is_place(place) && of_state(place) != of_state(place - 13);
    let second = |place: i32| is_place(place) && first(place) != first(place + 7);
    second(place) != second(place - 17)
}

/// The first draws from the seed 1 are those worked out apart; and from states of a single bit, and from states drawn, a draw has the bits that are
/// worked out one by one.
pub fn assert_draws(random: &mut Random) {
    assert_eq!(draws(1).take(EDIT_DRAWS).collect::<Vec<u64>>(), DRAWS_OF_ONE);
    assert_eq!(edits_of(1, 1), [EDIT_OF_ONE]);
    let of_one_bit = (0..u64::BITS).map(|place| 1 << place);
    for state in of_one_bit.chain(std::iter::repeat_with(|| random.bits()).take(STATES)) {
        let bits = (0..u64::BITS as i32).filter(|place| drawn_bit(state, *place));
        assert_eq!(drawn(state), bits.map(|place| 1 << place).sum::<u64>(), "the draw from {state}");
    }
}
