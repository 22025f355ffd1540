//! A second reading of the map file, of what the program prints of it and of what the C calls answer, written from the papers that
//! describe them. The map itself is run on both sides, as everywhere in the comparison.
use crate::bytes::bits_of;
use crate::index::Cell;
use crate::ledger::{Census, Ledger};
use crate::map_calls::{MapAnswer, MapCall, Maps};
use crate::reading::{Insertion, Refused, TORN, Value};

pub const LENGTH: u8 = 12;
pub const VERSION: u8 = 13;
pub const HEADING: u8 = 14;
pub const SHORT: u8 = 16;

/// The bytes of the count, those after it without edits, those of an edit, and how many edits there may be.
pub const COUNT_BYTES: usize = 4;
pub const HEAD_BYTES: usize = 105;
pub const EDIT_BYTES: usize = 34;
pub const MOST_EDITS: usize = 1000;

/// The versions that there are. They are laid out alike, and differ in what becomes of a torn edit.
pub const VERSIONS: [u8; 2] = [1, 2];

/// What the C call for a set-point writes: a position and its weight.
pub const VALUE_BYTES: usize = 32;

/// What the C call for a cell writes: both words and the count.
pub const CELL_BYTES: usize = 17;

#[derive(Clone, Copy, Debug, PartialEq)]
pub struct Edit {
    pub point: u8,
    pub direction: u8,
    pub ratio: f64,
    pub position: [f64; 3],
}

impl Edit {
    /// The edit as a call, by the rule on torn ones.
    pub fn call(&self, withdraws: bool) -> MapCall {
        let Edit { point, direction, ratio, position } = *self;
        MapCall::Insert { withdraws, con: point, direction: direction as usize, ratio, position }
    }
}

#[derive(Clone)]
pub struct MapFile {
    pub version: u8,
    pub border: f64,
    pub corners: [[f64; 3]; 4],
    pub edits: Vec<Edit>,
}

impl MapFile {
    /// Whether a torn edit is withdrawn: in version 1 it stays.
    pub fn withdraws(&self) -> bool {
        self.version == 2
    }
}

/// Bytes that are taken from the front. There are enough: the count was checked.
pub struct Front<'a>(pub &'a [u8]);

impl Front<'_> {
    pub fn take<const N: usize>(&mut self) -> [u8; N] {
        let (taken, rest) = self.0.split_first_chunk::<N>().expect("the count was checked");
        self.0 = rest;
        *taken
    }
    pub fn byte(&mut self) -> u8 {
        self.take::<1>()[0]
    }
    fn float(&mut self) -> f64 {
        f64::from_bits(u64::from_be_bytes(self.take()))
    }
    fn position(&mut self) -> [f64; 3] {
        std::array::from_fn(|_| self.float())
    }
    fn edit(&mut self) -> Edit {
        Edit { point: self.byte(), direction: self.byte(), ratio: self.float(), position: self.position() }
    }
}

/// How many entries of a size stand behind a head, where the file's count is that of the bytes that follow it, and they are whole and not too many.
pub fn counted(file: &[u8], head: usize, size: usize, most: usize) -> Option<usize> {
    let (count, rest) = file.split_first_chunk::<COUNT_BYTES>()?;
    let count = u32::from_be_bytes(*count) as usize;
    let of_entries = count.checked_sub(head)?;
    let whole = count == rest.len() && of_entries % size == 0 && of_entries / size <= most;
    whole.then_some(of_entries / size)
}

/// What a file says, or its refusal: the length, then the version, then the directions.
pub fn read(file: &[u8]) -> Refused<MapFile> {
    let count = counted(file, HEAD_BYTES, EDIT_BYTES, MOST_EDITS).ok_or(LENGTH)?;
    let mut front = Front(&file[COUNT_BYTES..]);
    let version = front.byte();
    if !VERSIONS.contains(&version) {
        return Err(VERSION);
    }
    let border = front.float();
    let corners = std::array::from_fn(|_| front.position());
    let edits: Vec<Edit> = (0..count).map(|_| front.edit()).collect();
    if edits.iter().any(|edit| edit.direction > 3) {
        return Err(HEADING);
    }
    Ok(MapFile { version, border, corners, edits })
}

/// The bytes of a file whose count is right.
pub fn bytes_of(file: &MapFile) -> Vec<u8> {
    let mut out = ((HEAD_BYTES + file.edits.len() * EDIT_BYTES) as u32).to_be_bytes().to_vec();
    let put = |out: &mut Vec<u8>, x: f64| out.extend(x.to_bits().to_be_bytes());
    out.push(file.version);
    put(&mut out, file.border);
    file.corners.iter().flatten().for_each(|x| put(&mut out, *x));
    for edit in &file.edits {
        out.extend([edit.point, edit.direction]);
        put(&mut out, edit.ratio);
        edit.position.iter().for_each(|x| put(&mut out, *x));
    }
    out
}

/// A file that was run: whether torn edits were withdrawn, both maps after its edits, and what each edit answered.
pub struct Run {
    withdraws: bool,
    pub maps: Maps,
    pub answers: Vec<Insertion>,
}

pub fn run(file: &MapFile) -> Run {
    let withdraws = file.withdraws();
    let mut maps = Maps::new(file.corners, file.border);
    let mut answers = Vec::new();
    for edit in &file.edits {
        let MapAnswer::Inserted(answer) = maps.make(edit.call(withdraws)) else { unreachable!() };
        answers.push(answer);
    }
    maps.assert_same();
    Run { withdraws, maps, answers }
}

impl Run {
    pub fn set_point(&mut self, s: f64, t: f64) -> Refused<Value> {
        let MapAnswer::Evaluated(answer) = self.maps.make(MapCall::SetPoint { s, t }) else { unreachable!() };
        answer
    }

    /// The counts that the answers of the edits give.
    fn by_answers(&self) -> Census {
        let mut ledger = Ledger::default();
        self.answers.iter().for_each(|answer| ledger.enter(self.withdraws, *answer));
        ledger.census()
    }

    /// The answers of the edits that were withdrawn.
    pub fn withdrawn(&self) -> impl Iterator<Item = &Insertion> {
        self.answers.iter().filter(|answer| self.withdraws && answer.number() == TORN)
    }
}

/// The bits of a value, position and weight.
pub fn bits(value: &Value) -> [u64; 4] {
    let [x, y, z] = value.position;
    [x, y, z, value.weight].map(bits_of)
}

/// The counts that a text shows, made, listed and links in their line, openings by the number of their lines.
fn counts_shown(text: &str) -> [usize; 4] {
    let line = text.lines().find(|line| line.starts_with("made")).expect("a line of counts");
    let numbers: Vec<usize> = line.split(' ').filter_map(|word| word.parse().ok()).collect();
    [numbers[0], numbers[1], numbers[2], text.lines().filter(|line| line.starts_with("open")).count()]
}

/// All that the program prints of a file. The counts that it shows are those that the answers of the edits give.
pub fn text(file: &[u8]) -> String {
    let mut run = match read(file) {
        Ok(file) => run(&file),
        Err(number) => return format!("file refused {number}\n"),
    };
    let mut text = String::new();
    for (k, answer) in run.answers.iter().enumerate() {
        if answer.number() != 0 {
            text += &format!("edit {} refused {}\n", k + 1, answer.number());
        }
    }
    let counted = run.maps.census();
    text += &format!("made {} listed {} links {}\n", counted.made, counted.listed, counted.links);
    for (point, direction) in run.maps.reading.store.openings() {
        text += &format!("open {point} {direction}\n");
    }
    let Census { made, listed, links, openings, .. } = run.by_answers();
    assert_eq!(counts_shown(&text), [made, listed, links, openings], "the counts printed");
    text + &match run.set_point(0.5, 0.5) {
        Ok(value) => {
            let [x, y, z, weight] = bits(&value);
            format!("mid {x:016x} {y:016x} {z:016x} {weight:016x}\n")
        }
        Err(number) => format!("mid refused {number}\n"),
    }
}

/// Two samples, of version 1 and of version 2, with the same edits, and the answers of these in both, which docs/FORMATS.md adds up.
pub const SAMPLES: [&str; 2] = ["samples/dryer.map", "samples/withdrawn.map"];
const ANSWERS: &str = "samples/dryer.answers";

pub fn sample(path: &str) -> MapFile {
    read(&std::fs::read(path).expect("the sample can be read")).expect("the sample is valid")
}

/// What the edits of a sample answer, one a line.
fn sample_answers(path: &str) -> String {
    let line = |answer: &Insertion| match answer {
        Insertion::Done(counts) => format!("done {} {}\n", counts.opened, counts.inferred),
        Insertion::Torn(counts, _) => format!("torn {} {}\n", counts.opened, counts.inferred),
        Insertion::Refused(number) => format!("refused {number}\n"),
    };
    run(&sample(path)).answers.iter().map(line).collect()
}

pub fn write_sample_answers() {
    std::fs::write(ANSWERS, sample_answers(SAMPLES[0])).expect("the answers can be written");
    assert_sample_answers();
}

pub fn assert_sample_answers() {
    let stored = std::fs::read_to_string(ANSWERS).expect("the answers can be read");
    SAMPLES.iter().for_each(|path| assert_eq!(stored, sample_answers(path), "{path}"));
}

/// What the C call for a cell answers: 16 before all else, then the file's refusal, then that of building the knots.
pub fn host_cell(file: &[u8], cell: u8, room: usize) -> Refused<Cell> {
    if room < CELL_BYTES {
        return Err(SHORT);
    }
    let MapAnswer::Reached(_, answer) = run(&read(file)?).maps.make(MapCall::CellPoints { cell }) else { unreachable!() };
    answer
}

/// What the C call for a set-point answers: 16 before all else, then the file's refusal, then those of the set-point: 20, the evaluation's, 15.
pub fn host_answer(file: &[u8], s: u64, t: u64, room: usize) -> Refused<[u64; 4]> {
    if room < VALUE_BYTES {
        return Err(SHORT);
    }
    let mut run = run(&read(file)?);
    run.set_point(f64::from_bits(s), f64::from_bits(t)).map(|value| bits(&value))
}
