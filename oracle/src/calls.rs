//! Direct calls on a store, made on both sides at once: the reading's answer is the answer, and the published one must be the same
//! wherever it exists.
use crate::bytes::{Bytes, bits_of};
use crate::original;
use crate::reading::{self, FULL, NO_POINT, Point, RING, Side, Walk};

/// One direct call.
#[derive(Clone, Copy, Debug)]
pub enum Call {
    Make(f64),
    Connect(u8, u8, usize, f64),
    RemoveConnection(u8, usize),
    RemoveEdgeCondition(u8, usize),
    SetEdgeConWeight(u8, usize, f64),
    SetKnotCoordinates(u8, f64, f64),
    Navigate(u8, usize, usize),
}

/// The answer's number, 0 for done, and what a walk found.
#[derive(Clone, Copy, Debug)]
pub struct Answer {
    pub number: u8,
    pub walk: Option<Walk>,
}

fn plain<T>(answer: Result<T, u8>) -> Answer {
    Answer { number: answer.err().unwrap_or(0), walk: None }
}

/// The two stores, the reading's and the published one.
#[derive(Default)]
pub struct Both {
    pub reading: reading::Store,
    pub original: original::Store,
}

impl Both {
    /// Makes the call on both sides, and tells where they differ. The published side is left out where it has no such
    /// answer: a number never made, a full store, a ring.
    pub fn make(&mut self, call: Call) -> Answer {
        let answer = perform(&mut self.reading, call);
        if ![NO_POINT, FULL, RING].contains(&answer.number) {
            hold_against(&mut self.original, call, answer);
        }
        answer
    }

    pub fn assert_same(&self) {
        assert_same_points(&self.reading.points, &self.original.read())
    }
}

/// Makes the call on the published side, whose answer must be the one given.
pub fn hold_against(store: &mut original::Store, call: Call, answer: Answer) {
    let published = match call {
        Call::Make(weight) => {
            store.make(weight);
            Ok(())
        }
        Call::Connect(point, other, d, interval) => store.connect(point, other, d, interval),
        Call::RemoveConnection(point, d) => store.remove_connection(point, d),
        Call::RemoveEdgeCondition(point, d) => store.remove_edge_condition(point, d),
        Call::SetEdgeConWeight(point, d, weight) => store.set_edge_con_weight(point, d, weight),
        Call::SetKnotCoordinates(point, horizontal, vertical) => {
            store.set_knot_coordinates(point, horizontal, vertical)
        }
        Call::Navigate(start, travel, watch) => {
            let found = store.navigate_until_con(start, travel, watch);
            let expected = answer.walk.map(|walk| (walk.point, bits_of(walk.sum)));
            assert_eq!(found.ok().map(|(point, sum)| (point, bits_of(sum))), expected, "{call:?}");
            found.map(|_| ())
        }
    };
    assert_eq!(published.err().unwrap_or(0), answer.number, "{call:?}");
}

/// Makes the call on the reading's side.
pub fn perform(store: &mut reading::Store, call: Call) -> Answer {
    match call {
        Call::Make(weight) => plain(store.make(weight)),
        Call::Connect(point, other, d, interval) => plain(store.connect(point, other, d, interval)),
        Call::RemoveConnection(point, d) => plain(store.remove_connection(point, d)),
        Call::RemoveEdgeCondition(point, d) => plain(store.remove_edge_condition(point, d)),
        Call::SetEdgeConWeight(point, d, weight) => plain(store.set_edge_con_weight(point, d, weight)),
        Call::SetKnotCoordinates(point, horizontal, vertical) => {
            plain(store.set_knot_coordinates(point, horizontal, vertical))
        }
        Call::Navigate(start, travel, watch) => match store.navigate_until_con(start, travel, watch) {
            Ok(walk) => Answer { number: 0, walk: Some(walk) },
            Err(number) => Answer { number, walk: None },
        },
    }
}

pub fn assert_same_points(ours: &[Point], theirs: &[Point]) {
    let bytes = |points: &[Point]| {
        let mut out = Bytes::default();
        put_points(&mut out, points);
        out.0
    };
    assert!(bytes(ours) == bytes(theirs), "stores differ:\n{ours:?}\n{theirs:?}");
}

/// A call's bytes: its kind, its numbers and directions, its floats.
pub fn put_call(out: &mut Bytes, call: Call) {
    let mut head = |kind: u8, numbers: &[u8], floats: &[f64]| {
        out.byte(kind);
        numbers.iter().for_each(|n| out.byte(*n));
        floats.iter().for_each(|x| out.float(*x));
    };
    match call {
        Call::Make(weight) => head(0, &[], &[weight]),
        Call::Connect(point, other, d, interval) => head(1, &[point, other, d as u8], &[interval]),
        Call::RemoveConnection(point, d) => head(2, &[point, d as u8], &[]),
        Call::RemoveEdgeCondition(point, d) => head(3, &[point, d as u8], &[]),
        Call::SetEdgeConWeight(point, d, weight) => head(4, &[point, d as u8], &[weight]),
        Call::SetKnotCoordinates(point, horizontal, vertical) => head(5, &[point], &[horizontal, vertical]),
        Call::Navigate(start, travel, watch) => head(6, &[start, travel as u8, watch as u8], &[]),
    }
}

/// An answer's bytes: its number, and of a walk that was not refused the point, the moves and the sum.
pub fn put_answer(out: &mut Bytes, answer: Answer) {
    out.byte(answer.number);
    if let Some(walk) = answer.walk {
        out.byte(walk.point);
        out.byte(walk.moves);
        out.float(walk.sum);
    }
}

/// A store's bytes: how many points are made, then 56 bytes for each.
pub fn put_points(out: &mut Bytes, points: &[Point]) {
    out.byte(points.len() as u8);
    for point in points {
        point.sides.iter().for_each(|side| put_side(out, *side));
        point.coordinates.iter().for_each(|x| out.float(*x));
    }
}

/// A side's ten bytes: its kind (link 0, border 1, opening 2), the number linked to, the interval or weight. What a kind has not is 0.
fn put_side(out: &mut Bytes, side: Side) {
    let (kind, number, value) = match side {
        Side::Link(number, interval) => (0, number, interval),
        Side::Border(weight) => (1, 0, weight),
        Side::Opening => (2, 0, 0.0),
    };
    out.byte(kind);
    out.byte(number);
    out.float(value);
}
