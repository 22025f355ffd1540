//! Lists of direct calls on a store that starts empty, each with the answer of every call and the store at the end.
use crate::bytes::Bytes;
use crate::calls::{Answer, Both, Call, put_answer, put_call, put_points};
use crate::random::Random;
use crate::reading::{CAPACITY, Side, clockwise, opposite};

const RANDOM_LISTS: usize = 280;
const GRIDS: usize = 100;
const RINGS: usize = 100;
const FULL_STORES: usize = 6;

/// A list in the making: the calls so far with their answers.
pub struct List {
    both: Both,
    calls: Vec<(Call, Answer)>,
}

impl List {
    fn new() -> List {
        List { both: Both::default(), calls: Vec::new() }
    }

    /// The calls made on a store that starts empty.
    pub fn of(calls: &[Call]) -> List {
        let mut list = List::new();
        calls.iter().for_each(|call| list.call(*call));
        list
    }

    pub fn made_calls(&self) -> Vec<Call> {
        self.calls.iter().map(|(call, _)| *call).collect()
    }

    fn call(&mut self, call: Call) {
        let answer = self.both.make(call);
        self.calls.push((call, answer));
    }

    fn made(&self) -> usize {
        self.both.reading.made()
    }

    /// Opens a side, if it is a border.
    fn open(&mut self, point: u8, d: usize) {
        if self.both.reading.side(point, d).is_border() {
            self.call(Call::RemoveEdgeCondition(point, d));
        }
    }

    fn join(&mut self, point: u8, other: u8, d: usize, interval: f64) {
        self.open(point, d);
        self.open(other, opposite(d));
        self.call(Call::Connect(point, other, d, interval));
    }
}

fn interval(random: &mut Random) -> f64 {
    match random.below(12) {
        0 => random.of(&[-0.0, 5e-324, 1e-7, 1e-6, -1.0, 1e308, f64::INFINITY, f64::NEG_INFINITY, f64::NAN]),
        1..=2 => random.unit(),
        _ => random.of(&[0.0, 0.25, 0.5, 0.75, 1.0, 0.1, 0.3]),
    }
}

/// A point's number, mostly one that was made.
fn number(random: &mut Random, made: usize) -> u8 {
    if made == 0 || random.one_in(25) { random.below(256) as u8 } else { random.below(made) as u8 }
}

/// A side of the kind wanted, where a few draws find one.
fn side_of_kind(random: &mut Random, list: &List, wanted: fn(Side) -> bool) -> (u8, usize) {
    let mut found = (number(random, list.made()), random.below(4));
    for _ in 0..12 {
        if (found.0 as usize) < list.made() && wanted(list.both.reading.side(found.0, found.1)) {
            break;
        }
        found = (number(random, list.made()), random.below(4));
    }
    found
}

/// A call drawn so that it is mostly done and sometimes refused.
fn any_call(random: &mut Random, list: &List) -> Call {
    let made = list.made();
    match random.below(20) {
        0 => Call::Make(interval(random)),
        1..=5 => {
            let (point, d) = side_of_kind(random, list, Side::is_opening);
            let mut other = number(random, made);
            for _ in 0..8 {
                if (other as usize) < made && other != point && list.both.reading.side(other, opposite(d)).is_opening()
                {
                    break;
                }
                other = number(random, made);
            }
            Call::Connect(point, other, d, interval(random))
        }
        6..=7 => {
            let wanted = if random.one_in(2) { Side::is_link } else { Side::is_border };
            let (point, d) = side_of_kind(random, list, wanted);
            Call::RemoveConnection(point, d)
        }
        8..=10 => {
            let (point, d) = side_of_kind(random, list, Side::is_border);
            Call::RemoveEdgeCondition(point, d)
        }
        11..=12 => {
            let wanted = if random.one_in(6) { Side::is_link } else { Side::is_border };
            let (point, d) = side_of_kind(random, list, wanted);
            Call::SetEdgeConWeight(point, d, interval(random))
        }
        13 => Call::SetKnotCoordinates(number(random, made), interval(random), interval(random)),
        _ => {
            let (start, travel) = side_of_kind(random, list, Side::is_link);
            Call::Navigate(start, travel, random.below(4))
        }
    }
}

fn random_list(random: &mut Random) -> List {
    let mut list = List::new();
    for _ in 0..random.below(9) {
        list.call(Call::Make(interval(random)));
    }
    for _ in 0..20 + random.below(50) {
        list.call(any_call(random, &list));
    }
    list
}

/// A grid of points, some of its links left out, walked along and then torn at.
fn grid(random: &mut Random) -> List {
    let mut list = List::new();
    let (columns, rows) = (2 + random.below(4), 2 + random.below(4));
    let weight = interval(random);
    for _ in 0..columns * rows {
        list.call(Call::Make(weight));
    }
    list.call(Call::SetKnotCoordinates(0, 0.0, 0.0));
    let sparse = random.of(&[2, 4, 100]);
    for row in 0..rows {
        for column in 0..columns {
            let here = (row * columns + column) as u8;
            if column + 1 < columns && !random.one_in(sparse) {
                list.join(here, here + 1, 1, interval(random));
            }
            if row + 1 < rows && !random.one_in(sparse) {
                list.join(here, here + columns as u8, 0, interval(random));
            }
        }
    }
    for _ in 0..12 {
        list.call(Call::Navigate(number(random, list.made()), random.below(4), random.below(4)));
    }
    for _ in 0..random.below(25) {
        list.call(any_call(random, &list));
    }
    list
}

/// A ring of points in one direction among loose ones, walked along before and after a watched side on it is linked.
fn ring(random: &mut Random, length: usize, loose: usize) -> List {
    let mut list = List::new();
    for _ in 0..length + loose {
        list.call(Call::Make(interval(random)));
    }
    let d = random.below(4);
    for point in 0..length {
        list.join(point as u8, ((point + 1) % length) as u8, d, interval(random));
    }
    let watch = if random.one_in(2) { clockwise(d) } else { opposite(clockwise(d)) };
    for travel in [d, opposite(d)] {
        list.call(Call::Navigate(random.below(length) as u8, travel, watch));
        list.call(Call::Navigate(random.below(length) as u8, travel, random.below(4)));
    }
    if loose > 0 {
        list.join(random.below(length) as u8, length as u8, watch, interval(random));
        for start in 0..length.min(6) {
            list.call(Call::Navigate(start as u8, d, watch));
            list.call(Call::Navigate(start as u8, opposite(d), opposite(watch)));
        }
    }
    for _ in 0..random.below(10) {
        list.call(any_call(random, &list));
    }
    list
}

/// A store with every place taken: one more point is refused, and a line through all of it is walked from end to end.
fn full_store(random: &mut Random, closed: bool) -> List {
    let mut list = List::new();
    for _ in 0..CAPACITY + 2 {
        list.call(Call::Make(interval(random)));
    }
    let d = random.below(4);
    for point in 0..CAPACITY - 1 {
        list.join(point as u8, point as u8 + 1, d, interval(random));
    }
    if closed {
        list.join(CAPACITY as u8 - 1, 0, d, interval(random));
    }
    for start in [0, 1, 64, 127] {
        list.call(Call::Navigate(start, d, clockwise(d)));
        list.call(Call::Navigate(start, opposite(d), clockwise(d)));
    }
    list.join(3, 90, clockwise(d), interval(random));
    for start in [0, 3, 4, 90, 127, 128, 255] {
        list.call(Call::Navigate(start, d, clockwise(d)));
        list.call(Call::Navigate(start, opposite(d), clockwise(d)));
    }
    list
}

/// A list's bytes, its length first.
pub fn encoded(list: &List) -> Vec<u8> {
    list.both.assert_same();
    let mut body = Bytes::default();
    body.pair(list.calls.len() as u16);
    for (call, answer) in &list.calls {
        put_call(&mut body, *call);
        put_answer(&mut body, *answer);
    }
    put_points(&mut body, &list.both.reading.points);
    body.with_length()
}

/// A list of any of the kinds.
pub fn drawn(random: &mut Random, place: usize) -> List {
    match place % 50 {
        0 => full_store(random, place % 100 == 0),
        1..=10 => grid(random),
        11..=20 => ring(random, 2 + place % 9, place % 4),
        _ => random_list(random),
    }
}

pub fn write(seed: u64) {
    let mut random = Random::new(seed);
    let mut lists: Vec<List> = Vec::new();
    lists.push(List::new());
    lists.extend((0..RANDOM_LISTS).map(|_| random_list(&mut random)));
    lists.extend((0..GRIDS).map(|_| grid(&mut random)));
    lists.extend((0..RINGS).map(|place| ring(&mut random, 2 + place % 9, place % 4)));
    lists.extend((0..FULL_STORES).map(|place| full_store(&mut random, place % 2 == 0)));
    let mut out = Bytes::default();
    lists.iter().for_each(|list| out.0.extend(encoded(list)));
    print_table(&lists);
    out.write("crates/store_replay/data/cases");
}

fn print_table(lists: &[List]) {
    const WORDS: [&str; 7] = [
        "make",
        "connect",
        "remove_connection",
        "remove_edge_condition",
        "set_edge_con_weight",
        "set_knot_coordinates",
        "navigate_until_con",
    ];
    let mut table = [[0usize; 12]; 7];
    for (call, answer) in lists.iter().flat_map(|list| &list.calls) {
        let mut kind = Bytes::default();
        put_call(&mut kind, *call);
        table[kind.0[0] as usize][answer.number as usize] += 1;
    }
    println!("{} lists, {} calls; how often each answer occurs:", lists.len(), table.iter().flatten().sum::<usize>());
    for (word, row) in WORDS.iter().zip(table) {
        let counts: Vec<String> =
            row.iter().enumerate().filter(|(_, n)| **n > 0).map(|(number, n)| format!("{number}: {n}")).collect();
        println!("{word:24} {}", counts.join(", "));
    }
}
