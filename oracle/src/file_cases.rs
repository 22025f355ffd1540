//! Map files of both versions, each with the whole text that the program prints of it and what the C calls answer at some places and cells.
use crate::bytes::Bytes;
use crate::compare::Withdrawn;
use crate::draw::{BEYOND_MAP, MapList, ON_MAP, Plan, Pulls, RING_PREFIXES, Withdrawing, cell, evaluation, full_map, map, places, position};
use crate::map_calls::{MapAnswer, MapCall, put_cell};
use crate::map_cases::{AROUND_TWICE, AT_THE_CAPS, SQUARE, WITHDRAWN};
use crate::map_file::{
    CELL_BYTES, COUNT_BYTES, EDIT_BYTES, Edit, HEAD_BYTES, HEADING, LENGTH, MOST_EDITS, MapFile, Run, SAMPLES, SHORT, VALUE_BYTES,
    VERSION, VERSIONS, bytes_of, host_answer, host_cell, read, run, sample, text,
};
use crate::random::Random;
use crate::reading::{BORDER, CAPACITY, DOWN, FULL, Insertion, LEFT, NO_WEIGHT, OFF_MAP, OPEN_SIDE, RIGHT, RING, TORN, UP};
use crate::tallies::{Numbers, Words};

/// How many are drawn of version 1 and of version 2.
const DRAWN: [usize; 2] = [320, 72];
const REFUSED_EVALUATIONS: [usize; 2] = [8, 4];
const FULL_STORES: [usize; 2] = [4, 2];

/// What every byte of a C call's buffer is before the call, and all that a refusal leaves in it.
pub const FILLER: u8 = 0xa5;
const MOST_ROOM: usize = 64;

const NANS: [u64; 6] = [
    0x7ff8_0000_0000_0000,
    0xfff8_0000_0000_0000,
    0x7ff0_0000_0000_0001,
    0xfff0_0000_0000_0001,
    0x7fff_ffff_ffff_ffff,
    0xffff_ffff_ffff_ffff,
];

/// Floats at the ends of what a float can be.
const EXTREMES: [f64; 12] = [
    0.0,
    -0.0,
    5e-324,
    -5e-324,
    f64::MIN_POSITIVE,
    1e-7,
    f64::MAX,
    -f64::MAX,
    f64::INFINITY,
    f64::NEG_INFINITY,
    -1.0,
    -0.25,
];

fn extremes() -> Vec<f64> {
    EXTREMES.into_iter().chain(NANS.map(f64::from_bits)).collect()
}

/// Edits after which a ray walks over the border that a torn edit left.
const BORDER_MET: &[(u8, usize, f64)] = &[
    (0, RIGHT, 0.0),
    (1, LEFT, 0.5),
    (5, LEFT, 1.0),
    (3, RIGHT, 0.0),
    (7, DOWN, 1.0),
    (0, UP, -0.0),
    (9, RIGHT, 0.5),
];

/// Edits after which a ray walks over a border where the first, which is torn, is withdrawn.
const BORDER_MET_UNTORN: &[(u8, usize, f64)] = &[
    (0, RIGHT, 0.0),
    (3, RIGHT, 0.75),
    (1, UP, 0.5),
    (3, RIGHT, 0.0),
    (4, LEFT, 0.250001),
    (3, DOWN, 0.5),
    (5, LEFT, 0.250001),
];

/// A file, what it is kept for, and the C calls made with it: s, t and the length of the buffer; a cell and the length of the buffer.
pub struct Case {
    kind: &'static str,
    file: Vec<u8>,
    calls: Vec<(u64, u64, usize)>,
    cells: Vec<(u8, usize)>,
}

fn insertions(random: &mut Random, edits: &[(u8, usize, f64)]) -> Vec<Edit> {
    let edit = |&(point, direction, ratio): &(u8, usize, f64)| {
        Edit { point, direction: direction as u8, ratio, position: position(random) }
    };
    edits.iter().map(edit).collect()
}

/// The square map with border 1.0 and some edits.
fn square(random: &mut Random, version: u8, edits: &[(u8, usize, f64)]) -> MapFile {
    MapFile { version, border: 1.0, corners: SQUARE, edits: insertions(random, edits) }
}

/// What there is of a version, of values for version 1 and for version 2.
fn of_version<T: Copy>(version: u8, values: [T; 2]) -> T {
    values[version as usize - 1]
}

/// Which edits of a version are withdrawn where they are torn.
fn withdrawing(version: u8) -> Withdrawing {
    of_version(version, [Withdrawing::Never, Withdrawing::Always])
}

/// The readings that the description of the behaviour works out.
fn worked_examples(random: &mut Random, version: u8) -> Vec<Vec<u8>> {
    let lists: [&[(u8, usize, f64)]; 8] = [
        &[],
        &[(0, RIGHT, 2.0)],
        &[(0, RIGHT, 1.0)],
        &[(0, RIGHT, 0.0), (4, RIGHT, 0.5)],
        &[(0, RIGHT, 0.5)],
        &[(0, RIGHT, 0.5), (3, RIGHT, 0.5)],
        &[(0, LEFT, 0.5)],
        &[(0, RIGHT, 0.5), (3, RIGHT, 0.5), (0, UP, 0.5), (1, UP, 0.5), (4, UP, 0.5)],
    ];
    lists.iter().map(|edits| bytes_of(&square(random, version, edits))).collect()
}

/// Edits that lead to rings, and those after which a cap decides.
fn rings(random: &mut Random, version: u8) -> Vec<Vec<u8>> {
    let lists = RING_PREFIXES.iter().chain(&AT_THE_CAPS).chain([&AROUND_TWICE]);
    lists.map(|edits| bytes_of(&square(random, version, edits))).collect()
}

/// Lines across the whole map: each column is two edits, the second of which infers its link, and a row's last edit infers on
/// both sides.
fn grids(random: &mut Random, version: u8) -> Vec<Vec<u8>> {
    let mut files = Vec::new();
    for columns in 1..=6 {
        let mut edits = Vec::new();
        let (mut bottom, mut top) = (0, 3);
        for column in 0..columns {
            let ratio = 1.0 / (columns + 1 - column) as f64;
            edits.extend([(bottom, RIGHT, ratio), (top, RIGHT, ratio)]);
            (bottom, top) = (4 + 2 * column as u8, 5 + 2 * column as u8);
        }
        edits.extend([(0, UP, 0.5), (2, DOWN, 0.5)]);
        edits.extend((0..columns).map(|column| (4 + 2 * column as u8, UP, 0.5)));
        files.push(bytes_of(&square(random, version, &edits)));
    }
    files
}

/// The edits of a list of calls, as a file.
fn file_of(version: u8, list: &MapList) -> MapFile {
    let edit = |(call, _): &(MapCall, MapAnswer)| match *call {
        MapCall::Insert { con, direction, ratio, position, .. } => {
            Some(Edit { point: con, direction: direction as u8, ratio, position })
        }
        _ => None,
    };
    let edits = list.calls.iter().filter_map(edit).collect();
    MapFile { version, border: list.maps.border, corners: list.maps.corners, edits }
}

/// The file of a drawn map with so many edits.
fn drawn_file(random: &mut Random, version: u8, edits: usize) -> MapFile {
    let plan = Plan { edits, questions: false, direct_calls: false, withdrawing: withdrawing(version), pulls: Pulls::Never };
    file_of(version, &map(random, plan))
}

fn drawn(random: &mut Random, version: u8) -> Vec<Vec<u8>> {
    let mut files = Vec::new();
    for place in 0..of_version(version, DRAWN) {
        let most = [6, 12, 25, 50][place % 4];
        let edits = 1 + random.below(most);
        files.push(bytes_of(&drawn_file(random, version, edits)));
    }
    files
}

/// Maps whose evaluation is refused: by an opening (3), by a border (4).
fn refused_evaluations(random: &mut Random, version: u8) -> Vec<Vec<u8>> {
    let met = square(random, version, of_version(version, [BORDER_MET, BORDER_MET_UNTORN]));
    assert_eq!(run(&met).set_point(0.5, 0.5).err(), Some(BORDER));
    let mut files = vec![bytes_of(&met)];
    while files.len() < of_version(version, REFUSED_EVALUATIONS) {
        let edits = 1 + random.below(12);
        let file = drawn_file(random, version, edits);
        if run(&file).set_point(0.5, 0.5).err() == Some(OPEN_SIDE) {
            files.push(bytes_of(&file));
        }
    }
    files
}

/// The file of a map whose store is filled.
fn full_file(random: &mut Random, version: u8) -> MapFile {
    file_of(version, &full_map(random, withdrawing(version), Pulls::Never))
}

fn full_stores(random: &mut Random, version: u8) -> Vec<Vec<u8>> {
    (0..of_version(version, FULL_STORES)).map(|_| bytes_of(&full_file(random, version))).collect()
}

/// Borders with no edit, with two that are joined, and with one that is torn; in version 2 the last alone.
fn borders(random: &mut Random, version: u8) -> Vec<Vec<u8>> {
    let lists: [&[(u8, usize, f64)]; 3] = [&[], &[(0, RIGHT, 0.5), (3, RIGHT, 0.5)], &[(1, UP, 0.25), (3, DOWN, 0.0)]];
    let mut files = Vec::new();
    for border in extremes() {
        for edits in &lists[of_version(version, [0, 2])..] {
            files.push(bytes_of(&MapFile { border, ..square(random, version, edits) }));
        }
    }
    files
}

fn ratios(random: &mut Random, version: u8) -> Vec<Vec<u8>> {
    let near = [1.0, 1.0000000000000002, 0.9999999999999999, 2.0, 0.5];
    let ratios = extremes().into_iter().chain(near);
    ratios.map(|ratio| bytes_of(&square(random, version, &[(0, RIGHT, ratio), (3, RIGHT, 0.5), (2, DOWN, ratio)]))).collect()
}

/// Positions that are no number from 0 to 1, of a corner and of a point inserted, refused in version 1 and withdrawn in version 2.
fn positions(random: &mut Random, version: u8) -> Vec<Vec<u8>> {
    let mut files = Vec::new();
    for (place, value) in extremes().into_iter().enumerate() {
        let last = of_version(version, [2.0, 0.0]);
        let mut file = square(random, version, &[(0, RIGHT, 0.5), (3, RIGHT, 0.5), (0, RIGHT, last)]);
        if place % 2 == 0 {
            file.corners[place % 4][place % 3] = value;
        }
        file.edits[place % 3].position[(place + 1) % 3] = value;
        files.push(bytes_of(&file));
    }
    files
}

/// A file of so many edits; most find the store full, or a ratio or a point that is refused.
fn of_edits(random: &mut Random, count: usize) -> Vec<u8> {
    let mut edits = full_file(random, 1).edits;
    while edits.len() < count {
        let ratio = random.of(&[0.25, 0.5, f64::NAN, -1.0]);
        edits.push(Edit {
            point: random.below(200) as u8,
            direction: random.below(4) as u8,
            ratio,
            position: position(random),
        });
    }
    edits.truncate(count);
    bytes_of(&MapFile { version: 1, border: 1.0, corners: SQUARE, edits })
}

/// The edits of a file behind so many that are torn at the corners. Where these are withdrawn, they leave all its room to the others.
fn behind_torn(random: &mut Random, torn: usize, file: MapFile) -> MapFile {
    let corners = [(0, RIGHT, 0.0), (1, UP, 0.0), (2, LEFT, 0.0), (3, DOWN, 0.0)];
    let mut edits = insertions(random, &corners.repeat(torn.div_ceil(corners.len())));
    edits.truncate(torn);
    edits.extend(&file.edits);
    MapFile { edits, ..file }
}

/// No edit, one, as many as there may be, one more; and a file whose last edit of all has no direction. Of version 2, as many as there may be, most of
/// them withdrawn.
fn edit_counts(random: &mut Random, version: u8) -> Vec<Vec<u8>> {
    if version == 2 {
        let full = full_file(random, version);
        return vec![bytes_of(&behind_torn(random, MOST_EDITS - full.edits.len(), full))];
    }
    let mut files: Vec<Vec<u8>> = [0, 1, MOST_EDITS, MOST_EDITS + 1].map(|count| of_edits(random, count)).into();
    let mut last = files[2].clone();
    let end = last.len();
    last[end - EDIT_BYTES + 1] = 4;
    files.push(last);
    files
}

/// Every prefix of a file of one edit, and as many bytes of a longer one with their own count in front. Of version 2, those that have whole edits,
/// a byte less or a byte more.
fn prefixes(random: &mut Random, version: u8) -> Vec<Vec<u8>> {
    let one = bytes_of(&square(random, version, &[(0, RIGHT, 0.5)]));
    let three = bytes_of(&square(random, version, &[(0, RIGHT, 0.5), (3, RIGHT, 0.5), (0, UP, 0.0)]));
    let near_whole = |length: usize| (length + 1).checked_sub(COUNT_BYTES + HEAD_BYTES).is_some_and(|over| over % EDIT_BYTES <= 2);
    let is_kept = |length: &usize| version == 1 || near_whole(*length);
    let counted = |length: usize| with_count(&three[..length], (length - COUNT_BYTES) as u32);
    let cut = (0..one.len()).filter(is_kept).map(|length| one[..length].to_vec());
    cut.chain((COUNT_BYTES..three.len()).filter(is_kept).map(counted)).collect()
}

pub fn with_count(file: &[u8], count: u32) -> Vec<u8> {
    let mut changed = file.to_vec();
    changed[..COUNT_BYTES].copy_from_slice(&count.to_be_bytes());
    changed
}

pub fn with_byte(file: &[u8], at: usize, byte: u8) -> Vec<u8> {
    let mut changed = file.to_vec();
    changed[at] = byte;
    changed
}

/// Bytes that stand for no version.
const NO_VERSIONS: [u8; 8] = [0, 3, 4, 16, 49, 128, 129, 255];

/// Files with one thing wrong, and some with two or three, of which the first in order is named.
fn damaged(random: &mut Random, version: u8) -> Vec<Vec<u8>> {
    let sample = bytes_of(&square(random, version, &[(0, RIGHT, 0.5), (3, RIGHT, 0.5), (0, UP, 0.25)]));
    let count = (sample.len() - COUNT_BYTES) as u32;
    let heading = |edit: usize| COUNT_BYTES + HEAD_BYTES + EDIT_BYTES * edit + 1;
    let off = [count - 1, count + 1, count - EDIT_BYTES as u32, count + EDIT_BYTES as u32, count + COUNT_BYTES as u32];
    let other = [0, HEAD_BYTES as u32, u32::MAX, 1 << 31, count.swap_bytes()];
    let mut files: Vec<Vec<u8>> = off.iter().chain(&other).map(|&count| with_count(&sample, count)).collect();
    files.push([&sample[..], &[0]].concat());
    let versions: [&[u8]; 2] = [&NO_VERSIONS, &[]];
    files.extend(of_version(version, versions).iter().map(|version| with_byte(&sample, COUNT_BYTES, *version)));
    let directions: [&[u8]; 2] = [&[4, 5, 7, 127, 128, 252, 255], &[4, 255]];
    for edit in 0..3 {
        files.extend(of_version(version, directions).iter().map(|direction| with_byte(&sample, heading(edit), *direction)));
    }
    files.push(with_count(&with_byte(&sample, COUNT_BYTES, 3), count + 1));
    files.push(with_count(&with_byte(&sample, heading(0), 4), count - 1));
    files.push(with_byte(&with_byte(&sample, COUNT_BYTES, 0), heading(2), 9));
    files.push(with_count(&with_byte(&with_byte(&sample, COUNT_BYTES, 0), heading(1), 9), 0));
    files
}

/// Bytes drawn at random: as they come, which is for both versions, with a count that is right, with the version too, and with directions.
fn noise(random: &mut Random, version: u8) -> Vec<Vec<u8>> {
    let mut bytes = |length: usize| -> Vec<u8> { (0..length).map(|_| random.bits() as u8).collect() };
    let lengths: [&[usize]; 2] = [&[1, 2, 3, 4, 5, 109, 143, 34_000], &[]];
    let mut files: Vec<Vec<u8>> = of_version(version, lengths).iter().map(|length| bytes(*length)).collect();
    for edits in [0, 1, 2, 5, 20, 40] {
        let length = COUNT_BYTES + HEAD_BYTES + EDIT_BYTES * edits;
        let counted = with_count(&bytes(length), (length - COUNT_BYTES) as u32);
        let versioned = with_byte(&counted, COUNT_BYTES, version);
        let mut directed = versioned.clone();
        for edit in 0..edits {
            directed[COUNT_BYTES + HEAD_BYTES + EDIT_BYTES * edit + 1] %= 4;
        }
        files.extend([counted, versioned, directed]);
    }
    files
}

/// Files that are alike but for the version and of which other texts are printed: the samples, edits after whose withdrawal something shows, turned to
/// each side, and a store that is full later in version 2.
fn twins(random: &mut Random, _: u8) -> Vec<Vec<u8>> {
    let mut files = vec![sample(SAMPLES[1])];
    for edits in WITHDRAWN {
        for turns in 0..4 {
            let turned: Vec<_> = edits.iter().map(|edit| turned(*edit, turns)).collect();
            files.push(square(random, 2, &turned));
        }
    }
    files.push(full_later(random));
    files.iter().flat_map(in_both_versions).collect()
}

/// A store that is filled by torn edits where they stay, and by those behind them where they are withdrawn, and two edits more.
fn full_later(random: &mut Random) -> MapFile {
    let full = full_file(random, 2);
    let mut file = behind_torn(random, CAPACITY, full);
    file.edits.extend(insertions(random, &[(0, RIGHT, 0.5), (0, RIGHT, 0.0)]));
    let first_full = |version: u8| run(&MapFile { version, ..file.clone() }).answers.iter().position(|answer| answer.number() == FULL);
    assert!(first_full(1).expect("torn points fill it") < first_full(2).expect("points done fill it"));
    file
}

/// The text of a file without the lines of its edits.
fn text_of_map(file: &MapFile) -> String {
    text(&bytes_of(file)).lines().filter(|line| !line.starts_with("edit")).collect()
}

/// A file in each version. Version 2 leaves what its edits that are not torn leave by themselves.
fn in_both_versions(file: &MapFile) -> [Vec<u8>; 2] {
    let files = VERSIONS.map(|version| MapFile { version, ..file.clone() });
    let answers = run(&files[1]).answers;
    let untorn = files[1].edits.iter().zip(&answers).filter(|(_, answer)| answer.number() != TORN).map(|(edit, _)| *edit).collect();
    let texts = [&files[0], &files[1], &MapFile { edits: untorn, ..files[0].clone() }].map(text_of_map);
    assert_ne!(texts[0], texts[1]);
    assert_eq!(texts[1], texts[2]);
    files.map(|file| bytes_of(&file))
}

/// An edit of the square map turned anticlockwise so many times.
fn turned((point, direction, ratio): (u8, usize, f64), turns: usize) -> (u8, usize, f64) {
    let corner = |point: u8| if point < 4 { (point + turns as u8) % 4 } else { point };
    (corner(point), (direction + 3 * turns) % 4, ratio)
}

/// Files that are asked for set-points at the edges of the map and off it, each with a number that they answer on it: maps with values, the second after a
/// torn edit; one without weight at the map's edges; maps whose evaluation is refused; and refused files.
fn edge_files(random: &mut Random, version: u8) -> Vec<(Vec<u8>, u8)> {
    let plain = square(random, version, &[(0, RIGHT, 0.5)]);
    let torn = square(random, version, &[(0, RIGHT, 0.5), (0, RIGHT, 0.0)]);
    let without_border = MapFile { border: 0.0, ..plain.clone() };
    let ring = square(random, version, RING_PREFIXES[1]);
    let maps = [(plain, 0), (torn, 0), (without_border, NO_WEIGHT), (ring, RING)];
    let mut files: Vec<_> = maps.iter().map(|(file, number)| (bytes_of(file), *number)).collect();
    files.extend(refused_evaluations(random, version).into_iter().zip([BORDER, OPEN_SIDE]));
    let valid = files[0].0.clone();
    let heading = COUNT_BYTES + HEAD_BYTES + 1;
    files.push((valid[1..].to_vec(), LENGTH));
    files.extend([(with_byte(&valid, COUNT_BYTES, 3), VERSION), (with_byte(&valid, heading, 4), HEADING)]);
    files
}

/// Calls for set-points at the places of some parameters, each with the least room that there may be.
fn at_places(parameters: &[f64]) -> Vec<(u64, u64, usize)> {
    places(parameters).map(|(s, t)| (s.to_bits(), t.to_bits(), VALUE_BYTES)).collect()
}

/// Such files asked on the map, at its edges and beside them, off it, also in NaNs of every pattern, and on it and off it with a buffer that is too short.
fn at_edges(random: &mut Random, version: u8) -> Vec<Case> {
    let on_map = at_places(&ON_MAP);
    let beyond = at_places(&[&BEYOND_MAP[..], &NANS.map(f64::from_bits)].concat());
    let short: Vec<_> = [on_map[0], beyond[0]].iter().flat_map(|&(s, t, room)| [(s, t, 0), (s, t, room - 1)]).collect();
    let mut cases = Vec::new();
    for (file, number) in edge_files(random, version) {
        let numbers = |calls: &[(u64, u64, usize)]| -> Vec<u8> {
            calls.iter().map(|&(s, t, room)| host_answer(&file, s, t, room).err().unwrap_or(0)).collect()
        };
        let on_it = numbers(&on_map);
        assert!(on_it.contains(&number) && !on_it.contains(&OFF_MAP));
        assert_eq!(numbers(&beyond), vec![read(&file).err().unwrap_or(OFF_MAP); beyond.len()]);
        assert_eq!(numbers(&short), vec![SHORT; short.len()]);
        let calls = [&on_map[..], &beyond, &short].concat();
        let cells = cells(random, &file);
        cases.push(Case { kind: "edges of the map", file, calls, cells });
    }
    cases
}

/// Cells and buffers for the C call for a cell: two drawn cells, one of a file that is refused, and at times a buffer that is too short.
fn cells(random: &mut Random, file: &[u8]) -> Vec<(u8, usize)> {
    let mut cells = match read(file) {
        Ok(file) => {
            let map = run(&file).maps.reading;
            (0..2).map(|_| (cell(random, &map), random.of(&[CELL_BYTES, CELL_BYTES + 1, MOST_ROOM]))).collect()
        }
        Err(_) => vec![(random.below(256) as u8, CELL_BYTES)],
    };
    if random.one_in(3) {
        cells.push((random.below(256) as u8, random.of(&[0, CELL_BYTES - 1])));
    }
    cells
}

/// Places and buffers for the C call for a set-point: the middle, two drawn places, and at times a buffer that is too short.
fn calls(random: &mut Random, valid: bool) -> Vec<(u64, u64, usize)> {
    let half = 0.5f64.to_bits();
    let mut calls = vec![(half, half, VALUE_BYTES)];
    for _ in 0..if valid { 2 } else { 0 } {
        let MapCall::Evaluate { s, t } = evaluation(random) else { unreachable!() };
        let stored = |random: &mut Random, x: f64| if x.is_nan() { random.of(&NANS) } else { x.to_bits() };
        calls.push((stored(random, s), stored(random, t), random.of(&[32, 33, 48, MOST_ROOM])));
    }
    if random.one_in(3) {
        let short = random.below(VALUE_BYTES);
        calls.push((half, half, random.of(&[0, 1, 31, short])));
    }
    calls
}

impl Case {
    /// What a valid file says, and its edits.
    pub fn edits(&self) -> Option<(MapFile, Vec<Edit>)> {
        let file = read(&self.file).ok()?;
        let edits = file.edits.clone();
        Some((file, edits))
    }

    /// The same calls on a file with other edits.
    pub fn with_edits(&self, file: &MapFile, edits: &[Edit]) -> Case {
        let file = bytes_of(&MapFile { edits: edits.to_vec(), ..*file });
        Case { kind: self.kind, file, calls: self.calls.clone(), cells: self.cells.clone() }
    }

    pub fn length(&self) -> usize {
        self.file.len()
    }
}

/// A file of a drawn map, at times of a full one, and at times with a byte changed.
pub fn fresh(random: &mut Random, place: usize) -> Case {
    let version = random.of(&VERSIONS);
    let most = random.of(&[6, 12, 25, 50]);
    let edits = 1 + random.below(most);
    let mut file = bytes_of(&if place % 100 == 0 { full_file(random, version) } else { drawn_file(random, version, edits) });
    if random.one_in(10) {
        let at = random.below(file.len());
        file[at] = random.bits() as u8;
    }
    let calls = calls(random, read(&file).is_ok());
    let cells = cells(random, &file);
    Case { kind: "fresh", file, calls, cells }
}

/// A case's bytes, its length first.
pub fn encoded(case: &Case) -> Vec<u8> {
    let mut body = Bytes::default();
    let text = text(&case.file);
    for part in [&case.file[..], text.as_bytes()] {
        body.pair(part.len() as u16);
        body.0.extend(part);
    }
    body.byte(case.calls.len() as u8);
    for &(s, t, room) in &case.calls {
        body.0.extend([s.to_be_bytes(), t.to_be_bytes()].concat());
        body.byte(room as u8);
        let answer = host_answer(&case.file, s, t, room);
        body.byte(answer.err().unwrap_or(0));
        match answer {
            Ok(value) => body.0.extend(value.map(u64::to_be_bytes).concat()),
            Err(_) => body.0.extend([FILLER; VALUE_BYTES]),
        }
    }
    body.byte(case.cells.len() as u8);
    for &(cell, room) in &case.cells {
        body.byte(cell);
        body.byte(room as u8);
        let answer = host_cell(&case.file, cell, room);
        body.byte(answer.err().unwrap_or(0));
        match answer {
            Ok(cell) => put_cell(&mut body, &cell),
            Err(_) => body.0.extend([FILLER; CELL_BYTES]),
        }
    }
    body.with_length()
}

/// What files are kept for, and those of a version.
type Kind = (&'static str, fn(&mut Random, u8) -> Vec<Vec<u8>>);

const KINDS: [Kind; 14] = [
    ("worked examples", worked_examples),
    ("rings and caps", rings),
    ("grids", grids),
    ("drawn maps", drawn),
    ("refused evaluations", refused_evaluations),
    ("full stores", full_stores),
    ("borders", borders),
    ("ratios", ratios),
    ("positions", positions),
    ("counts of edits", edit_counts),
    ("prefixes", prefixes),
    ("damaged", damaged),
    ("noise", noise),
    ("empty", |_, version| vec![Vec::new(); of_version(version, [1, 0])]),
];

fn cases_of(random: &mut Random, version: u8, kinds: &[Kind]) -> Vec<Case> {
    let mut cases = Vec::new();
    for &(kind, files) in kinds {
        for file in files(random, version) {
            let calls = calls(random, read(&file).is_ok());
            cases.push(Case { kind, file, calls, cells: Vec::new() });
        }
    }
    cases.iter_mut().for_each(|case| case.cells = cells(random, &case.file));
    cases
}

pub fn write(seed: u64) {
    let mut random = Random::new(seed);
    let mut cases: Vec<Case> = VERSIONS.iter().flat_map(|version| cases_of(&mut random, *version, &KINDS)).collect();
    cases.extend(cases_of(&mut random, 2, &[("alike but for the version", twins)]));
    // The first file is that of no edits, of which document 01 has a reading off the map.
    let beyond = (5.0f64.to_bits(), 0.5f64.to_bits(), VALUE_BYTES);
    assert_eq!(host_answer(&cases[0].file, beyond.0, beyond.1, beyond.2), Err(OFF_MAP));
    cases[0].calls.push(beyond);
    cases.extend(VERSIONS.iter().flat_map(|version| at_edges(&mut random, *version)));
    let mut out = Bytes::default();
    cases.iter().for_each(|case| out.0.extend(encoded(case)));
    print_table(&cases);
    out.write("crates/file_replay/data/cases");
}

/// How far the published map speaks to the text of a file that was run, by the entries of docs/DIFFERENCES.md.
fn difference(run: &Run, mid: u8) -> &'static str {
    let knots = || run.maps.reading.listed.iter().map(|&point| run.maps.reading.store.point_knot_vectors(point));
    if !run.maps.followed {
        "an insertion torn by a ring that stays"
    } else if run.withdrawn().any(|answer| matches!(answer, Insertion::Torn(_, RING))) {
        "an insertion torn by a ring and withdrawn"
    } else if mid == RING {
        "an evaluation refused 9"
    } else if knots().any(|knots| knots.is_ok_and(|knots| !knots.never_fall())) {
        "knots that fall or hold a NaN"
    } else {
        "none"
    }
}

/// How many files of each version are run, what their edits answer, which are withdrawn, and of how many files of version 2 another text would be
/// printed were they of version 1.
#[derive(Default)]
pub struct Runs {
    versions: Numbers,
    edits: Numbers,
    withdrawn: Withdrawn,
    told_apart: usize,
}

impl Runs {
    pub fn count(&mut self, case: &Case) {
        let Ok(file) = read(&case.file) else { return };
        let run = run(&file);
        self.versions.count(file.version);
        run.answers.iter().for_each(|answer| self.edits.count(answer.number()));
        run.withdrawn().for_each(|answer| self.withdrawn.count(answer));
        self.told_apart += (text(&case.file) != text(&with_byte(&case.file, COUNT_BYTES, 1))) as usize;
    }

    pub fn print(&self) {
        self.versions.print("versions");
        println!("{:12} {} of version 2", "told apart", self.told_apart);
        self.edits.print("edits");
        self.withdrawn.print();
    }
}

fn print_table(cases: &[Case]) {
    let (mut files, mut mids, mut hosts, mut cells) = <(Numbers, Numbers, Numbers, Numbers)>::default();
    let (mut kinds, mut differences, mut inferred, mut runs) = <(Words, Words, [usize; 3], Runs)>::default();
    for case in cases {
        kinds.count(case.kind);
        runs.count(case);
        for &(s, t, room) in &case.calls {
            hosts.count(host_answer(&case.file, s, t, room).err().unwrap_or(0));
        }
        for &(cell, room) in &case.cells {
            cells.count(host_cell(&case.file, cell, room).err().unwrap_or(0));
        }
        let file = read(&case.file);
        files.count(file.as_ref().err().copied().unwrap_or(0));
        let Ok(file) = file else { continue };
        let mut run = run(&file);
        for answer in &run.answers {
            if let Insertion::Done(counts) = answer {
                inferred[counts.inferred as usize] += 1;
            }
        }
        let mid = run.set_point(0.5, 0.5).err().unwrap_or(0);
        mids.count(mid);
        differences.count(difference(&run, mid));
    }
    println!("{} files", cases.len());
    kinds.print("kinds");
    files.print("files");
    runs.print();
    println!("inferred     none {}, one {}, two {}", inferred[0], inferred[1], inferred[2]);
    mids.print("mid");
    hosts.print("C calls");
    cells.print("cells");
    differences.print("differences");
}
