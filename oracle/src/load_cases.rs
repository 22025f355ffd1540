//! Calls for a load, each with what the C call returns and what then stands at the front of its buffer.
use crate::bytes::Bytes;
use crate::load::{DIRECTIONS, NO_SEED, PARTS, POINTS, TOO_MANY, assert_draws, edits_of, file_length, floats_of, host_load};
use crate::map_file::{COUNT_BYTES, EDIT_BYTES, Edit, MOST_EDITS, SHORT};
use crate::random::Random;
use crate::tallies::{Numbers, Words};

/// How many are drawn, of a few edits and of more.
const DRAWN: usize = 260;
const LONGER: usize = 12;

/// How many edits are a few, more and many more, at most; and how many there may be.
const FEW: u64 = 8;
const MORE: u64 = 40;
const MANY_MORE: u64 = 200;
const MOST: u64 = MOST_EDITS as u64;

/// The most room that a call is lent: what a file of two edits more than there may be would take, so that too many edits are refused where there is room.
const MOST_ROOM: usize = file_length(MOST_EDITS + 2);

/// Counts of edits that are too many: the first; those that are few in their low 8 to 63 bits, or whose file's length is small in them; those that are
/// below 0 in a word with a sign; and the last.
const MANY_EDITS: [u64; 23] = [
    1001,
    1002,
    1024,
    1025,
    1 << 15,
    (1 << 15) + 5,
    u16::MAX as u64,
    1 << 16,
    (1 << 16) + 1,
    (1 << 16) + 1000,
    1 << 31,
    (1 << 31) + 5,
    u32::MAX as u64,
    1 << 32,
    (1 << 32) + 5,
    (1 << 32) + 1000,
    1 << 48,
    (1 << 63) - 1,
    1 << 63,
    (1 << 63) + 5,
    u64::MAX - u16::MAX as u64,
    u64::MAX - 1,
    u64::MAX,
];

/// What the C call is given: a seed, how many edits, and how long the buffer is.
#[derive(Clone, Copy, Debug)]
pub struct Call {
    pub seed: u64,
    pub edits: u64,
    pub room: usize,
}

/// The length of the file of so many edits; the most room, where no file has so many.
fn length(edits: u64) -> usize {
    if edits <= MOST { file_length(edits as usize) } else { MOST_ROOM }
}

/// A call with just enough room.
fn exact(seed: u64, edits: u64) -> Call {
    Call { seed, edits, room: length(edits) }
}

/// Lengths of a buffer for so many edits: 0, 1, a byte less than a file without edits takes, and as much; an edit, a count and a byte too short; just
/// enough, a byte more, and the most.
fn rooms(edits: u64) -> Vec<usize> {
    let (head, enough) = (file_length(0), length(edits));
    let short = [0, 1, head - 1, head, enough - EDIT_BYTES, enough - COUNT_BYTES, enough - 1];
    let mut rooms = [&short[..], &[enough, enough + 1, MOST_ROOM]].concat();
    rooms.retain(|room| *room <= MOST_ROOM);
    rooms.sort();
    rooms.dedup();
    rooms
}

/// Calls with each of these.
fn in_rooms(seed: u64, edits: u64) -> Vec<Call> {
    rooms(edits).iter().map(|room| Call { seed, edits, room: *room }).collect()
}

/// Seeds of a single bit. The draw from any seed is the exclusive-or of those from its bits.
fn single_bits(_: &mut Random) -> Vec<Call> {
    (0..u64::BITS).map(|place| exact(1 << place, 1)).collect()
}

fn few_edits(random: &mut Random) -> Vec<Call> {
    let seeds = [1, 2, u64::MAX, 1 << 63, 0x0123_4567_89ab_cdef, random.bits()];
    seeds.iter().flat_map(|seed| (0..=FEW).map(|edits| exact(*seed, edits))).collect()
}

/// Seeds that are alike in their low bits, and some that are alike in their high bits.
fn alike(random: &mut Random) -> Vec<Call> {
    let seed = random.bits();
    let in_low_bits = [7, 8, 16, 31, 32, 33, 48, 63].into_iter().flat_map(|bits| [seed ^ 1 << bits, seed ^ u64::MAX << bits]);
    let in_high_bits = [seed ^ 1, seed ^ 0xff, seed ^ 0xffff_ffff];
    [seed].into_iter().chain(in_low_bits).chain(in_high_bits).map(|seed| exact(seed, 2)).collect()
}

/// Seeds that are 0 in their low bits, or in their high bits, and not 0.
fn partly_zero(random: &mut Random) -> Vec<Call> {
    let low = [8, 16, 31, 32, 33, 48, 63].into_iter().flat_map(|bits| [u64::MAX << bits, (random.bits() | 1) << bits]);
    let high = [0xff, 0xffff, 0xffff_ffff, 0xffff_ff00, 0x00ff_ffff_0000_0000, 256, 65536];
    low.chain(high).flat_map(|seed| [exact(seed, 0), exact(seed, 2)]).collect()
}

/// The first seed drawn whose first edit is as wanted.
fn seed_where(random: &mut Random, is_wanted: impl Fn(&Edit) -> bool) -> u64 {
    std::iter::repeat_with(|| random.bits()).find(|seed| is_wanted(&edits_of(*seed, 1)[0])).expect("seeds have no end")
}

/// Edits at the ends of what may be drawn: a ratio or a float of the position that is 0 or 1, or beside one of these; the first point and the last; and
/// each direction.
fn ends(random: &mut Random) -> Vec<Call> {
    let part = 1.0 / PARTS as f64;
    let mut seeds = Vec::new();
    for place in 0..4 {
        seeds.extend([0.0, part, 1.0 - part, 1.0].map(|end| seed_where(random, |edit| floats_of(edit)[place] == end)));
    }
    seeds.extend([0, POINTS as u8 - 1].map(|point| seed_where(random, |edit| edit.point == point)));
    seeds.extend((0..DIRECTIONS as u8).map(|direction| seed_where(random, |edit| edit.direction == direction)));
    seeds.iter().map(|seed| exact(*seed, 1)).collect()
}

fn all_rooms(random: &mut Random) -> Vec<Call> {
    [0, 1, 2, 3, FEW, MORE].into_iter().flat_map(|edits| in_rooms(random.bits(), edits)).collect()
}

/// As many edits as there may be, and one less: with every buffer that is too short, and three times with one that is not, since the files are long.
fn most_edits(random: &mut Random) -> Vec<Call> {
    let mut calls = [in_rooms(random.bits(), MOST - 1), in_rooms(1, MOST)].concat();
    calls.retain(|call| call.room < length(call.edits));
    calls.push(Call { seed: random.bits(), edits: MOST - 1, room: length(MOST - 1) + 1 });
    calls.extend([exact(1, MOST), Call { seed: u64::MAX, edits: MOST, room: MOST_ROOM }]);
    calls
}

/// Too many edits of a seed: with no room, with that of a file without edits, and with the most.
fn many_edits(seed: u64) -> Vec<Call> {
    let in_rooms = |edits: u64| [0, file_length(0), MOST_ROOM].map(|room| Call { seed, edits, room });
    MANY_EDITS.into_iter().flat_map(in_rooms).collect()
}

fn too_many(random: &mut Random) -> Vec<Call> {
    [many_edits(1), many_edits(random.bits())].concat()
}

/// The seed 0 alone, with too little room, with too many edits, and with both.
fn no_seed(_: &mut Random) -> Vec<Call> {
    let few = [0, 1, 2, FEW, MOST - 1, MOST].into_iter().flat_map(|edits| in_rooms(0, edits));
    few.chain(many_edits(0)).collect()
}

/// Any seed, and at times 0, one of a single bit, a small one, or one that is 0 in its low bits.
fn some_seed(random: &mut Random) -> u64 {
    let any = random.bits();
    match random.below(16) {
        0 => 0,
        1 => 1 << random.below(u64::BITS as usize),
        2 => any % 1000,
        3 => any << random.of(&[8, 16, 32, 48]),
        _ => any,
    }
}

/// A buffer that most often is long enough for so many edits.
fn some_room(random: &mut Random, edits: u64) -> usize {
    let any = random.below(MOST_ROOM + 1);
    let enough = length(edits);
    let odd = random.of(&rooms(edits));
    random.of(&[enough, enough, (enough + 1).min(MOST_ROOM), MOST_ROOM, odd, odd, any.max(enough), any])
}

/// A call with a seed and a buffer drawn.
fn some_call(random: &mut Random, edits: u64) -> Call {
    Call { seed: some_seed(random), edits, room: some_room(random, edits) }
}

fn some_edits(random: &mut Random, least: u64, most: u64) -> u64 {
    least + random.bits() % (most - least + 1)
}

fn drawn(random: &mut Random) -> Vec<Call> {
    (0..DRAWN).map(|place| some_call(random, place as u64 % (FEW + 1))).collect()
}

fn longer(random: &mut Random) -> Vec<Call> {
    let mut counts: Vec<u64> = (0..LONGER).map(|_| some_edits(random, FEW + 1, MORE)).collect();
    counts.push(MANY_MORE);
    counts.iter().map(|edits| exact(random.bits(), *edits)).collect()
}

/// A call for a few edits, at times for more, and now and then for as many as there may be, beside that, or for far too many.
pub fn fresh(random: &mut Random, place: usize) -> Call {
    let edits = match place % 100 {
        0 => some_edits(random, MOST - 1, MOST + 1),
        1..=3 => some_edits(random, MORE, MANY_MORE),
        4..=7 => random.of(&MANY_EDITS),
        8 => random.bits() >> random.below(54),
        _ => some_edits(random, 0, MORE),
    };
    some_call(random, edits)
}

/// A case's bytes, its length first.
pub fn encoded(call: &Call) -> Vec<u8> {
    let Call { seed, edits, room } = *call;
    let mut body = Bytes::default();
    body.word(seed);
    body.word(edits);
    body.pair(room as u16);
    let answer = host_load(seed, edits, room);
    body.word(answer.as_ref().map_or_else(|number| *number as u64, |file| file.len() as u64));
    body.0.extend(answer.unwrap_or_default());
    body.with_length()
}

/// What calls are kept for, and those calls.
type Kind = (&'static str, fn(&mut Random) -> Vec<Call>);

const KINDS: [Kind; 11] = [
    ("single bits", single_bits),
    ("few edits", few_edits),
    ("alike", alike),
    ("partly zero", partly_zero),
    ("ends", ends),
    ("rooms", all_rooms),
    ("most edits", most_edits),
    ("too many", too_many),
    ("seed 0", no_seed),
    ("drawn", drawn),
    ("longer", longer),
];

pub fn write(seed: u64) {
    let mut random = Random::new(seed);
    assert_draws(&mut random);
    let mut cases = Vec::new();
    for (kind, calls) in KINDS {
        cases.extend(calls(&mut random).into_iter().map(|call| (kind, call)));
    }
    let mut out = Bytes::default();
    let (mut kinds, mut table) = <(Words, Table)>::default();
    for (kind, call) in &cases {
        kinds.count(kind);
        table.count(call);
        out.0.extend(encoded(call));
    }
    println!("{} loads", cases.len());
    kinds.print("kinds");
    table.print();
    assert!(table.calls.have(&[0, SHORT, NO_SEED, TOO_MANY]));
    out.write("crates/load_replay/data/cases");
}

/// The refusals that a call has cause for, of which it is answered the first in order.
const FAULTS: [&str; 8] = ["none", "21", "22", "21 and 22", "16", "21 and 16", "22 and 16", "all three"];

fn faults(call: &Call) -> &'static str {
    let file = file_length(0) as u128 + EDIT_BYTES as u128 * call.edits as u128;
    let (many, short) = (call.edits > MOST, (call.room as u128) < file);
    FAULTS[(call.seed == 0) as usize + 2 * many as usize + 4 * short as usize]
}

/// What the calls answer, which refusals they have cause for, how many edits are written, and how many floats of these are 0 and 1.
#[derive(Default)]
pub struct Table {
    calls: Numbers,
    faults: Words,
    edits: usize,
    ends: [usize; 2],
}

impl Table {
    pub fn count(&mut self, call: &Call) {
        let Call { seed, edits, room } = *call;
        self.faults.count(faults(call));
        let answer = host_load(seed, edits, room);
        self.calls.count(answer.as_ref().err().copied().unwrap_or(0));
        if answer.is_ok() {
            let written = edits_of(seed, edits as usize);
            let at = |end: f64| written.iter().flat_map(floats_of).filter(|x| *x == end).count();
            self.edits += written.len();
            self.ends = [self.ends[0] + at(0.0), self.ends[1] + at(1.0)];
        }
    }

    pub fn print(&self) {
        self.calls.print("C calls");
        self.faults.print("causes");
        println!("{:12} {}, with {} floats that are 0 and {} that are 1", "edits", self.edits, self.ends[0], self.ends[1]);
    }
}
