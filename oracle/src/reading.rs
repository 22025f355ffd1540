//! A second reading of the behaviour, written from the paper that describes it and not from the published Rust: points by
//! number, every refusal by its number, every cap on moves. The comparison holds the published Rust against it, and where a
//! ring would keep the Rust running it alone gives the answer.

use crate::index::{Cell, cell_of};

/// The answers' numbers, as the table of answers has them.
pub const RATIO: u8 = 1;
pub const FOREIGN: u8 = 2;
pub const OPEN_SIDE: u8 = 3;
pub const BORDER: u8 = 4;
pub const TAKEN: u8 = 5;
pub const INTERVAL: u8 = 6;
pub const ITSELF: u8 = 7;
pub const TORN: u8 = 8;
pub const RING: u8 = 9;
pub const FULL: u8 = 10;
pub const NO_POINT: u8 = 11;
pub const NO_WEIGHT: u8 = 15;
pub const PULL: u8 = 17;
pub const OFF_MAP: u8 = 20;

pub const CAPACITY: usize = 128;

pub type Refused<T> = Result<T, u8>;

/// Small: from −e to e, with e = 1.0 / 1000000.0.
pub fn small(x: f64) -> bool {
    let e = 1.0 / 1000000.0;
    -e <= x && x <= e
}

pub const UP: usize = 0;
pub const RIGHT: usize = 1;
pub const DOWN: usize = 2;
pub const LEFT: usize = 3;

pub fn clockwise(d: usize) -> usize {
    (d + 1) % 4
}
pub fn opposite(d: usize) -> usize {
    (d + 2) % 4
}
pub fn anticlockwise(d: usize) -> usize {
    (d + 3) % 4
}

#[derive(Clone, Copy, Debug)]
pub enum Side {
    Link(u8, f64),
    Border(f64),
    Opening,
}

impl Side {
    pub fn is_link(self) -> bool {
        matches!(self, Side::Link(..))
    }
    pub fn is_border(self) -> bool {
        matches!(self, Side::Border(_))
    }
    pub fn is_opening(self) -> bool {
        matches!(self, Side::Opening)
    }
}

#[derive(Clone, Copy, Debug)]
pub struct Point {
    pub sides: [Side; 4],
    /// Horizontal, then vertical.
    pub coordinates: [f64; 2],
}

/// A walk's answer.
#[derive(Clone, Copy, Debug)]
pub struct Walk {
    pub point: u8,
    pub sum: f64,
    pub moves: u8,
}

/// The points made, by number.
#[derive(Clone, Debug, Default)]
pub struct Store {
    pub points: Vec<Point>,
}

impl Store {
    pub fn made(&self) -> usize {
        self.points.len()
    }

    fn holds(&self, n: u8) -> Refused<()> {
        if (n as usize) < self.made() { Ok(()) } else { Err(NO_POINT) }
    }

    pub fn side(&self, n: u8, d: usize) -> Side {
        self.points[n as usize].sides[d]
    }

    fn put(&mut self, n: u8, d: usize, side: Side) {
        self.points[n as usize].sides[d] = side
    }

    /// A point made alone: four borders of one weight, coordinates (−1, −1).
    pub fn make(&mut self, weight: f64) -> Refused<u8> {
        if self.made() == CAPACITY {
            return Err(FULL);
        }
        self.points.push(Point { sides: [Side::Border(weight); 4], coordinates: [-1.0, -1.0] });
        Ok((self.made() - 1) as u8)
    }

    pub fn connect(&mut self, point: u8, other: u8, d: usize, interval: f64) -> Refused<()> {
        self.holds(point)?;
        self.holds(other)?;
        if point == other {
            return Err(ITSELF);
        }
        if !self.side(point, d).is_opening() || !self.side(other, opposite(d)).is_opening() {
            return Err(TAKEN);
        }
        self.put(point, d, Side::Link(other, interval));
        self.put(other, opposite(d), Side::Link(point, interval));
        let mut moved = self.points[point as usize].coordinates;
        match d {
            UP => moved[1] += interval,
            RIGHT => moved[0] += interval,
            DOWN => moved[1] -= interval,
            _ => moved[0] -= interval,
        }
        self.points[other as usize].coordinates = moved;
        Ok(())
    }

    pub fn remove_connection(&mut self, point: u8, d: usize) -> Refused<()> {
        self.holds(point)?;
        match self.side(point, d) {
            Side::Opening => return Err(OPEN_SIDE),
            Side::Link(other, _) => self.put(other, opposite(d), Side::Opening),
            Side::Border(_) => {}
        }
        self.put(point, d, Side::Opening);
        Ok(())
    }

    pub fn remove_edge_condition(&mut self, point: u8, d: usize) -> Refused<()> {
        self.holds(point)?;
        if !self.side(point, d).is_border() {
            return Err(TAKEN);
        }
        self.put(point, d, Side::Opening);
        Ok(())
    }

    pub fn set_edge_con_weight(&mut self, point: u8, d: usize, weight: f64) -> Refused<()> {
        self.holds(point)?;
        match self.side(point, d) {
            Side::Link(..) => Err(TAKEN),
            Side::Opening => Err(OPEN_SIDE),
            Side::Border(_) => {
                self.put(point, d, Side::Border(weight));
                Ok(())
            }
        }
    }

    pub fn set_knot_coordinates(&mut self, point: u8, horizontal: f64, vertical: f64) -> Refused<()> {
        self.holds(point)?;
        let found = &mut self.points[point as usize];
        if !found.sides.iter().all(|side| side.is_border()) {
            return Err(TAKEN);
        }
        found.coordinates = [horizontal, vertical];
        Ok(())
    }

    /// The openings of the points made, by number, and for a point Up, Right, Down, Left (Ticket 3 of document 02).
    pub fn openings(&self) -> Vec<(u8, usize)> {
        let sides = (0..self.made() as u8).flat_map(|n| [UP, RIGHT, DOWN, LEFT].map(|d| (n, d)));
        sides.filter(|&(n, d)| self.side(n, d).is_opening()).collect()
    }

    /// The two-way links, those that lead back: each is counted at the end that it leaves Up or Right.
    pub fn links(&self) -> usize {
        let leads_back = |n: u8, d: usize| {
            let Side::Link(other, _) = self.side(n, d) else { return false };
            matches!(self.side(other, opposite(d)), Side::Link(back, _) if back == n)
        };
        (0..self.made() as u8).flat_map(|n| [(n, UP), (n, RIGHT)]).filter(|&(n, d)| leads_back(n, d)).count()
    }

    /// The borders of the points made.
    pub fn borders(&self) -> usize {
        self.points.iter().flat_map(|point| point.sides).filter(|side| side.is_border()).count()
    }

    /// The point over a side and the interval to it; over an opening 3, over a border 4.
    fn step(&self, point: u8, d: usize) -> Refused<(u8, f64)> {
        match self.side(point, d) {
            Side::Link(other, interval) => Ok((other, interval)),
            Side::Opening => Err(OPEN_SIDE),
            Side::Border(_) => Err(BORDER),
        }
    }

    /// The walk: a step, and then steps until a point's watched side is a link. The sum starts as the first interval.
    pub fn navigate_until_con(&self, start: u8, travel: usize, watch: usize) -> Refused<Walk> {
        self.holds(start)?;
        let (mut point, mut sum) = self.step(start, travel)?;
        let mut moves = 1;
        while !self.side(point, watch).is_link() {
            let (next, interval) = self.step(point, travel)?;
            if moves == self.made() {
                return Err(RING);
            }
            point = next;
            sum += interval;
            moves += 1;
        }
        Ok(Walk { point, sum, moves: moves as u8 })
    }

    /// What the search for an inferred link on side f of p answers: the point to join and the interval, or none.
    /// The search that connects as it goes joins the first point that can be joined, and so does this one.
    fn find_inferred_connection(&self, p: u8, f: usize) -> Refused<Option<(u8, f64)>> {
        let along = self.navigate_until_con(p, clockwise(f), f)?;
        let across = self.navigate_until_con(along.point, f, anticlockwise(f))?;
        let mut point = across.point;
        let mut passed = 0.0;
        let mut moves = 0;
        loop {
            let (next, interval) = self.step(point, anticlockwise(f))?;
            if moves == self.made() {
                return Err(RING);
            }
            moves += 1;
            passed += interval;
            point = next;
            if small(along.sum - passed) {
                if point == p {
                    return Err(ITSELF);
                }
                if self.side(p, f).is_opening() && self.side(point, opposite(f)).is_opening() {
                    return Ok(Some((point, across.sum)));
                }
            } else if passed > along.sum || self.side(point, opposite(f)).is_link() {
                return Ok(None);
            }
        }
    }

    /// The intervals that a ray from a point crosses, as many as asked for.
    pub fn cast_ray(&self, start: u8, d: usize, count: usize) -> Refused<Vec<f64>> {
        self.holds(start)?;
        let mut entries: Vec<f64> = Vec::new();
        let mut point = start;
        let mut border_met = false;
        while entries.len() < count {
            match self.side(point, d) {
                Side::Link(other, interval) => {
                    entries.push(0.0 + interval);
                    point = other;
                }
                Side::Border(weight) if !border_met => {
                    entries.push(0.0 + weight);
                    border_met = true;
                }
                Side::Border(_) => entries.push(0.0),
                Side::Opening => point = self.march(point, d, count, &mut entries)?,
            }
        }
        Ok(entries)
    }

    /// A ray's way past an opening: around the face, then from face to face beside the ray. Answers where it goes on.
    fn march(&self, start: u8, d: usize, count: usize, entries: &mut Vec<f64>) -> Refused<u8> {
        let away = self.navigate_until_con(start, anticlockwise(d), d)?;
        let over = self.navigate_until_con(away.point, d, clockwise(d))?;
        entries.push(0.0 + over.sum);
        let mut point = over.point;
        let mut distance = away.sum;
        loop {
            if self.side(point, d).is_border() || entries.len() == count {
                return Ok(point);
            }
            let mut rounds = 0;
            loop {
                if rounds == self.made() {
                    return Err(RING);
                }
                rounds += 1;
                let nearer = self.navigate_until_con(point, clockwise(d), d)?;
                let left = distance - nearer.sum;
                if small(left) {
                    return Ok(point);
                }
                if left < 0.0 {
                    break;
                }
                point = nearer.point;
                distance = left;
            }
            if self.side(point, d).is_opening() {
                let around = self.navigate_until_con(point, anticlockwise(d), d)?;
                point = around.point;
                distance += around.sum;
            }
            let over = self.navigate_until_con(point, d, clockwise(d))?;
            entries.push(over.sum);
            point = over.point;
        }
    }

    /// The five horizontal and the five vertical knots of a point.
    pub fn point_knot_vectors(&self, point: u8) -> Refused<Knots> {
        self.holds(point)?;
        let [s, t] = self.points[point as usize].coordinates;
        let mut knots = Knots { s: [s; 5], t: [t; 5] };
        for d in 0..4 {
            let entries = self.cast_ray(point, d, 2)?;
            let line = if d % 2 == 0 { &mut knots.t } else { &mut knots.s };
            for (i, entry) in entries.iter().enumerate() {
                if d < 2 {
                    line[3 + i] = line[2 + i] + entry;
                } else {
                    line[1 - i] = line[2 - i] - entry;
                }
            }
        }
        Ok(knots)
    }
}

#[derive(Clone, Copy, Debug)]
pub struct Knots {
    pub s: [f64; 5],
    pub t: [f64; 5],
}

impl Knots {
    /// Whether neither line of knots falls or holds a NaN, so that the published conversion leaves both as they are.
    pub fn never_fall(&self) -> bool {
        [self.s, self.t].iter().all(|line| line.windows(2).all(|pair| pair[0] <= pair[1]))
    }
}

/// The counts of an insertion: sides opened and links inferred.
#[derive(Clone, Copy, Debug, Default, PartialEq)]
pub struct Counts {
    pub opened: u8,
    pub inferred: u8,
}

/// What an insertion answers. A torn one also tells what the search met, which is no part of the answer: where it is a ring, the
/// published search may not end.
#[derive(Clone, Copy, Debug, PartialEq)]
pub enum Insertion {
    Done(Counts),
    Torn(Counts, u8),
    Refused(u8),
}

impl Insertion {
    /// The answer's number, 0 for done.
    pub fn number(self) -> u8 {
        match self {
            Insertion::Done(_) => 0,
            Insertion::Torn(..) => TORN,
            Insertion::Refused(number) => number,
        }
    }
}

/// An evaluation's answer: the position and its total weight.
#[derive(Clone, Copy, Debug)]
pub struct Value {
    pub position: [f64; 3],
    pub weight: f64,
}

/// The set-point at (s, t). Its value is asked for only where both are from 0 to 1, the ends included: −0.0 is 0, a NaN is outside (Ticket 8 of
/// document 02). It is refused unless its weight is positive and finite.
pub fn set_point(s: f64, t: f64, value: impl FnOnce() -> Refused<Value>) -> Refused<Value> {
    if ![s, t].iter().all(|x| (0.0..=1.0).contains(x)) {
        return Err(OFF_MAP);
    }
    let value = value()?;
    if value.weight > 0.0 && value.weight < f64::INFINITY { Ok(value) } else { Err(NO_WEIGHT) }
}

/// A map: its points, their positions and pulls, which are listed, and the knots kept.
#[derive(Clone, Debug)]
pub struct Map {
    pub store: Store,
    pub positions: Vec<[f64; 3]>,
    pub pulls: Vec<f64>,
    pub listed: Vec<u8>,
    pub kept: Option<Vec<Knots>>,
}

impl Map {
    /// Four corners, anticlockwise from bottom left, corner 0 at (0, 0), linked at 1.0.
    pub fn new(corners: [[f64; 3]; 4], weight: f64) -> Map {
        let mut store = Store::default();
        for _ in 0..4 {
            store.make(weight).expect("an empty store has room");
        }
        store.set_knot_coordinates(0, 0.0, 0.0).expect("a new point has four borders");
        for (corner, d) in [RIGHT, UP, LEFT, DOWN].into_iter().enumerate() {
            let (point, other) = (corner as u8, ((corner + 1) % 4) as u8);
            store.put(point, d, Side::Opening);
            store.put(other, opposite(d), Side::Opening);
            store.connect(point, other, d, 1.0).expect("both sides are open");
        }
        let mut map = Map { store, positions: Vec::new(), pulls: Vec::new(), listed: vec![0, 1, 2, 3], kept: None };
        corners.into_iter().for_each(|corner| map.record(corner));
        map
    }

    /// The record of a point just made gets its position, and the pull 1.0.
    pub fn record(&mut self, position: [f64; 3]) {
        self.positions.push(position);
        self.pulls.push(1.0);
    }

    /// Sets the pull of a point, listed or not (Ticket 6 of document 02).
    pub fn set_pull(&mut self, point: u8, pull: f64) -> Refused<()> {
        self.store.holds(point)?;
        if pull < 0.0 || pull.is_infinite() || pull.is_nan() {
            return Err(PULL);
        }
        self.pulls[point as usize] = pull;
        Ok(())
    }

    /// The interval stored on a side, for a link or a border.
    fn stored_interval(&self, point: u8, d: usize) -> Refused<f64> {
        match self.store.side(point, d) {
            Side::Link(_, interval) => Ok(interval),
            Side::Border(weight) => Ok(weight),
            Side::Opening => Err(OPEN_SIDE),
        }
    }

    fn insertion_place(&self, con: u8, d: usize, ratio: f64) -> Refused<(u8, f64)> {
        if !(0.0 <= ratio && ratio <= 1.0) {
            return Err(RATIO);
        }
        if !self.listed.contains(&con) {
            return Err(FOREIGN);
        }
        let (other, interval) = self.store.step(con, d)?;
        if !small(interval - self.stored_interval(other, opposite(d))?) {
            return Err(INTERVAL);
        }
        if self.store.made() == CAPACITY {
            return Err(FULL);
        }
        Ok((other, interval))
    }

    pub fn add_control_point(&mut self, position: [f64; 3], con: u8, d: usize, ratio: f64) -> Insertion {
        let (other, interval) = match self.insertion_place(con, d, ratio) {
            Ok(place) => place,
            Err(number) => return Insertion::Refused(number),
        };
        self.store.remove_connection(con, d).expect("the side is a link");
        let p = self.store.make(0.0).expect("the store has room");
        self.record(position);
        let store = &mut self.store;
        store.put(p, d, Side::Opening);
        store.put(p, opposite(d), Side::Opening);
        store.connect(con, p, d, interval * ratio).expect("both sides are open");
        store.connect(p, other, d, interval * (1.0 - ratio)).expect("both sides are open");
        let mut counts = Counts::default();
        for f in [clockwise(d), anticlockwise(d)] {
            if let Side::Border(weight) = store.side(con, f) {
                store.put(p, f, Side::Border(weight));
                continue;
            }
            store.put(p, f, Side::Opening);
            counts.opened += 1;
            match store.find_inferred_connection(p, f) {
                Err(met) => return Insertion::Torn(counts, met),
                Ok(None) => {}
                Ok(Some((found, across))) => {
                    store.connect(p, found, f, across).expect("the search tested both sides");
                    counts.inferred += 1;
                }
            }
        }
        self.listed.push(p);
        self.kept = None;
        Insertion::Done(counts)
    }

    /// An insertion by a rule on torn ones: they stay, or they are withdrawn (Ticket 5 of document 02). The map after a withdrawn one
    /// is the one before it, kept knots included.
    pub fn add_by_rule(&mut self, withdraws: bool, position: [f64; 3], con: u8, d: usize, ratio: f64) -> Insertion {
        let before = withdraws.then(|| self.clone());
        let answer = self.add_control_point(position, con, d, ratio);
        if let (Insertion::Torn(..), Some(before)) = (answer, before) {
            *self = before;
        }
        answer
    }

    /// Builds the knots of all listed points anew. A ray's refusal is returned and leaves the map as it was: only an insertion
    /// that is done drops knots that are kept.
    pub fn generate_knot_vectors(&mut self) -> Refused<()> {
        let all: Refused<Vec<Knots>> = self.listed.iter().map(|&point| self.store.point_knot_vectors(point)).collect();
        self.kept = Some(all?);
        Ok(())
    }

    /// Knots are built only if none are kept.
    fn keep_knots(&mut self) -> Refused<()> {
        if self.kept.is_none() { self.generate_knot_vectors() } else { Ok(()) }
    }

    /// Which listed points reach a cell. The index is dropped and rebuilt with the knots, so it is always that of the knots kept.
    pub fn cell_points(&mut self, cell: u8) -> Refused<Cell> {
        self.keep_knots()?;
        Ok(cell_of(&self.listed, self.kept.as_deref().expect("knots are kept"), cell))
    }

    pub fn subs(&mut self, s: f64, t: f64) -> Refused<Value> {
        self.keep_knots()?;
        let mut value = Value { position: [0.0; 3], weight: 0.0 };
        for (knots, &point) in self.kept.iter().flatten().zip(&self.listed) {
            let basis_product = basis_function(s, &knots.s) * basis_function(t, &knots.t);
            let weight = basis_product * self.pulls[point as usize];
            for axis in 0..3 {
                value.position[axis] += self.positions[point as usize][axis] * weight;
            }
            value.weight += weight;
        }
        value.position = value.position.map(|sum| sum / value.weight);
        Ok(value)
    }
}

/// The basis function of five knots: a formula for each segment, 0.0 outside.
pub fn basis_function(u: f64, a: &[f64; 5]) -> f64 {
    let span = |i: usize, j: usize| a[i] - a[j];
    let above = |i: usize| u - a[i];
    let below = |i: usize| a[i] - u;
    if u < a[0] || u >= a[4] {
        0.0
    } else if u < a[1] {
        above(0) * above(0) * above(0) / (span(3, 0) * span(2, 0) * span(1, 0))
    } else if u < a[2] {
        let first = 0.0 + above(0) * above(0) * below(2) / (span(3, 0) * span(2, 0));
        let second = first + above(0) * above(1) * below(3) / (span(3, 0) * span(3, 1));
        let third = second + above(1) * above(1) * below(4) / (span(4, 1) * span(3, 1));
        1.0 / span(2, 1) * third
    } else if u < a[3] {
        let first = 0.0 + above(0) * below(3) * below(3) / (span(3, 0) * span(3, 1));
        let second = first + above(1) * below(4) * below(3) / (span(4, 1) * span(3, 1));
        let third = second + above(2) * below(4) * below(4) / (span(4, 1) * span(4, 2));
        1.0 / span(3, 2) * third
    } else {
        below(4) * below(4) * below(4) / (span(4, 1) * span(4, 2) * span(4, 3))
    }
}
