//! Calls on a whole map, made on both sides at once: the reading's answer is the answer, and the published one must be the same
//! wherever it exists.
use crate::bytes::{Bytes, bits_of};
use crate::calls::{Answer, Call, assert_same_points, hold_against, perform, put_answer, put_call, put_points};
use crate::index::{Cell, cell_of};
use crate::ledger::{Census, Ledger, is_mirrored};
use crate::original;
use crate::reading::{self, FULL, Insertion, Knots, NO_POINT, Point, RING, Side, Value, anticlockwise, clockwise, set_point};

/// One call on a map.
#[derive(Clone, Copy, Debug)]
pub enum MapCall {
    /// An insertion, withdrawn where it is torn or not.
    Insert { withdraws: bool, con: u8, direction: usize, ratio: f64, position: [f64; 3] },
    Ray { point: u8, direction: usize, count: usize },
    Knots { point: u8 },
    Evaluate { s: f64, t: f64 },
    Generate,
    Openings,
    /// The map lent, and its value by what was lent.
    Lend { s: f64, t: f64 },
    SetPoint { s: f64, t: f64 },
    /// The map lent, and its set-point by what was lent.
    LentSetPoint { s: f64, t: f64 },
    /// Which listed points reach a cell.
    CellPoints { cell: u8 },
    /// The counts of the map.
    Counts,
    /// A point's pull set.
    SetPull { point: u8, pull: f64 },
    Direct(Call),
}

/// What a call on a map answers.
#[derive(Clone, Debug)]
pub enum MapAnswer {
    Inserted(Insertion),
    Cast(Result<Vec<f64>, u8>),
    Knotted(Result<Knots, u8>),
    Evaluated(Result<Value, u8>),
    Generated(Result<(), u8>),
    /// The openings in their order, each a point and a direction.
    Opened(Vec<(u8, usize)>),
    /// How many points are listed, and the cell.
    Reached(usize, Result<Cell, u8>),
    Counted(Census),
    Pulled(Result<(), u8>),
    Direct(Answer),
}

impl MapAnswer {
    /// The answer's number, 0 for done.
    pub fn number(&self) -> u8 {
        match self {
            MapAnswer::Inserted(answer) => answer.number(),
            MapAnswer::Cast(answer) => answer.as_ref().err().copied().unwrap_or(0),
            MapAnswer::Knotted(answer) => answer.err().unwrap_or(0),
            MapAnswer::Evaluated(answer) => answer.err().unwrap_or(0),
            MapAnswer::Generated(answer) | MapAnswer::Pulled(answer) => answer.err().unwrap_or(0),
            MapAnswer::Opened(..) | MapAnswer::Counted(_) => 0,
            MapAnswer::Reached(_, answer) => answer.err().unwrap_or(0),
            MapAnswer::Direct(answer) => answer.number,
        }
    }
}

/// The two maps, the reading's and the published one.
pub struct Maps {
    pub reading: reading::Map,
    original: original::Map,
    /// Whether the published map still stands where the reading does: an insertion torn by a ring is not made there. One that is withdrawn
    /// is not made there either, and leaves both as they were.
    pub followed: bool,
    /// Whether the knots that the two keep are the same: falling knots are sorted there.
    same_knots: bool,
    /// What the insertions answered, until the first direct call, which may change sides by itself.
    ledger: Option<Ledger>,
    /// How many values had a listed point with another pull than 1.0.
    pub pulled_values: u64,
    pub corners: [[f64; 3]; 4],
    pub border: f64,
}

fn bits<const N: usize>(floats: [f64; N]) -> [u64; N] {
    floats.map(bits_of)
}

impl Maps {
    pub fn new(corners: [[f64; 3]; 4], border: f64) -> Maps {
        Maps {
            reading: reading::Map::new(corners, border),
            original: original::Map::new(corners, border),
            followed: true,
            same_knots: true,
            ledger: Some(Ledger::default()),
            pulled_values: 0,
            corners,
            border,
        }
    }

    pub fn made(&self) -> usize {
        self.reading.store.made()
    }

    pub fn make(&mut self, call: MapCall) -> MapAnswer {
        match call {
            MapCall::Insert { withdraws, con, direction, ratio, position } => {
                let answer = self.insert(withdraws, con, direction, ratio, position);
                if let Some(ledger) = &mut self.ledger {
                    ledger.enter(withdraws, answer);
                }
                MapAnswer::Inserted(answer)
            }
            MapCall::Ray { point, direction, count } => MapAnswer::Cast(self.ray(point, direction, count)),
            MapCall::Knots { point } => MapAnswer::Knotted(self.knots(point)),
            MapCall::Evaluate { s, t } | MapCall::Lend { s, t } => MapAnswer::Evaluated(self.evaluate(s, t)),
            MapCall::SetPoint { s, t } => MapAnswer::Evaluated(set_point(s, t, || self.evaluate(s, t))),
            MapCall::LentSetPoint { s, t } => MapAnswer::Evaluated(self.evaluate(s, t).and_then(|value| set_point(s, t, || Ok(value)))),
            MapCall::Generate => MapAnswer::Generated(self.generate()),
            MapCall::Openings => MapAnswer::Opened(self.openings()),
            MapCall::CellPoints { cell } => MapAnswer::Reached(self.reading.listed.len(), self.cell_points(cell)),
            MapCall::Counts => MapAnswer::Counted(self.census()),
            MapCall::SetPull { point, pull } => MapAnswer::Pulled(self.reading.set_pull(point, pull)),
            MapCall::Direct(call) => {
                self.ledger = None;
                MapAnswer::Direct(self.direct(call))
            }
        }
    }

    fn insert(&mut self, withdraws: bool, con: u8, d: usize, ratio: f64, position: [f64; 3]) -> Insertion {
        let answer = self.reading.add_by_rule(withdraws, position, con, d, ratio);
        match answer {
            Insertion::Refused(FULL) => return answer,
            Insertion::Refused(_) if con as usize >= self.made() => return answer,
            Insertion::Torn(_, RING) if withdraws => return answer,
            Insertion::Torn(_, RING) => self.followed = false,
            Insertion::Done(_) => self.same_knots = true,
            _ => {}
        }
        if self.followed {
            let (published, thrown_away) = if withdraws {
                self.original.add_or_withdraw(position, con, d, ratio)
            } else {
                (self.original.add_control_point(position, con, d, ratio), None)
            };
            assert_eq!(published, answer.number(), "insertion at {con} {d} {ratio}");
            if let Insertion::Done(counts) | Insertion::Torn(counts, _) = answer {
                assert_counted(thrown_away.as_ref().unwrap_or(&self.original).store.last(), d, counts);
            }
        }
        answer
    }

    fn ray(&mut self, point: u8, d: usize, count: usize) -> Result<Vec<f64>, u8> {
        let answer = self.reading.store.cast_ray(point, d, count);
        if self.followed && !matches!(answer, Err(RING | NO_POINT)) {
            let published = self.original.store.cast_ray(point, d, count);
            let plain = |ray: &Result<Vec<f64>, u8>| {
                ray.clone().map(|entries| entries.into_iter().map(bits_of).collect::<Vec<_>>())
            };
            assert_eq!(plain(&published), plain(&answer), "ray from {point} {d} of {count}");
        }
        answer
    }

    fn knots(&mut self, point: u8) -> Result<Knots, u8> {
        let answer = self.reading.store.point_knot_vectors(point);
        if self.followed && !matches!(answer, Err(RING | NO_POINT)) && answer.map_or(true, |knots| knots.never_fall()) {
            let published = self.original.store.point_knot_vectors(point);
            let plain = |knots: Result<Knots, u8>| knots.map(|knots| (bits(knots.s), bits(knots.t)));
            assert_eq!(plain(published), plain(answer), "knots of {point}");
        }
        answer
    }

    /// The published map has no pulls: its value is the same where every listed point has the pull 1.0. Where one has another it builds its knots, or refuses,
    /// as the reading does.
    fn evaluate(&mut self, s: f64, t: f64) -> Result<Value, u8> {
        let converts = self.reading.kept.is_some() || self.conversion_ends();
        let answer = self.reading.subs(s, t);
        let pulled = self.is_pulled();
        self.pulled_values += (pulled && answer.is_ok()) as u64;
        if self.builds_alike(answer.err(), converts) {
            let published = self.original.subs(s, t).map(bits);
            assert_eq!(published.err(), answer.err(), "knots for a value");
            if !pulled {
                assert_eq!(published, answer.map(|value| bits(value.position)), "evaluation at {s} {t}");
            }
            self.assert_same_knots();
        }
        answer
    }

    /// Whether a listed point has another pull than 1.0.
    pub fn is_pulled(&self) -> bool {
        self.reading.listed.iter().any(|&point| self.reading.pulls[point as usize] != 1.0)
    }

    /// The published map has no index: it builds its knots for a value, as the reading does for the cell, and the cell is read from its listing
    /// and the knots that it then keeps.
    fn cell_points(&mut self, cell: u8) -> Result<Cell, u8> {
        let converts = self.reading.kept.is_some() || self.conversion_ends();
        let answer = self.reading.cell_points(cell);
        if self.builds_alike(answer.err(), converts) {
            let built = self.original.subs(0.0, 0.0);
            self.assert_same_knots();
            let rows = || self.original.kept().expect("a value's knots are kept");
            let published = built.map(|_| cell_of(&self.original.listed(), &rows(), cell));
            assert_eq!(published, answer, "cell {cell}");
        }
        answer
    }

    /// Whether the published map is asked for what rests on knots: not where building them may not end or panics, and not where it would sort them.
    fn builds_alike(&mut self, refusal: Option<u8>, converts: bool) -> bool {
        if refusal == Some(RING) || refusal.is_some() && !converts {
            return false;
        }
        if self.reading.kept.iter().flatten().any(|knots| !knots.never_fall()) {
            self.same_knots = false;
        }
        self.followed && self.same_knots
    }

    /// The published map is not asked where it may not end or panics, and not where it would sort: it then keeps what it kept.
    fn generate(&mut self) -> Result<(), u8> {
        let converts = self.conversion_ends();
        let answer = self.reading.generate_knot_vectors();
        if answer == Err(RING) || answer.is_err() && !converts {
            return answer;
        }
        if answer.is_ok() {
            self.same_knots = self.reading.kept.iter().flatten().all(|knots| knots.never_fall());
        }
        if self.followed && self.same_knots {
            assert_eq!(self.original.generate_knot_vectors(), answer, "knots of all listed points");
            self.assert_same_knots();
        }
        answer
    }

    /// The openings of the published points, read in the same order, are the same.
    fn openings(&self) -> Vec<(u8, usize)> {
        let openings = self.reading.store.openings();
        if self.followed {
            let points = self.original.store.read();
            let sides = (0..points.len()).flat_map(|n| (0..4).map(move |d| (n, d)));
            let published = sides.filter(|&(n, d)| points[n].sides[d].is_opening()).map(|(n, d)| (n as u8, d));
            assert!(published.eq(openings.iter().copied()), "openings");
        }
        openings
    }

    /// The counts, which are those of the published points too, and those that the answers of the insertions give.
    pub fn census(&self) -> Census {
        let census = counted(&self.reading.store, self.reading.listed.len());
        if self.followed {
            let published = reading::Store { points: self.original.store.read() };
            assert_eq!(counted(&published, self.original.listed().len()), census, "counts of the published points");
        }
        if let Some(ledger) = &self.ledger {
            assert_eq!(ledger.census(), census, "counts by the answers of the insertions");
        }
        census
    }

    /// Both keep no knots, or the same.
    fn assert_same_knots(&self) {
        let plain = |kept: Option<Vec<Knots>>| {
            kept.map(|rows| rows.into_iter().map(|row| (bits(row.s), bits(row.t))).collect::<Vec<_>>())
        };
        assert_eq!(plain(self.original.kept()), plain(self.reading.kept.clone()), "knots kept");
    }

    /// Whether no knots before the first refusal hold a NaN, at which the published conversion panics.
    fn conversion_ends(&self) -> bool {
        let knots = self.reading.listed.iter().map(|&point| self.reading.store.point_knot_vectors(point));
        knots.map_while(Result::ok).all(|knots| !knots.s.iter().chain(&knots.t).any(|knot| knot.is_nan()))
    }

    fn direct(&mut self, call: Call) -> Answer {
        let answer = perform(&mut self.reading.store, call);
        if let Call::Make(_) = call {
            if answer.number == 0 {
                self.reading.record([0.0; 3]);
            }
        }
        if self.followed && ![NO_POINT, FULL, RING].contains(&answer.number) {
            hold_against(&mut self.original.store, call, answer);
        }
        answer
    }

    /// Both maps are the same, as far as the published one is followed, and their counts are those of the ledger.
    pub fn assert_same(&self) {
        self.census();
        if self.followed {
            assert_same_points(&self.reading.store.points, &self.original.store.read());
            assert_eq!(self.reading.listed, self.original.listed());
            for (point, position) in self.reading.positions.iter().enumerate() {
                assert_eq!(bits(*position), bits(self.original.store.position(point as u8)), "position of {point}");
            }
        }
        if self.followed && self.same_knots {
            self.assert_same_knots();
        }
    }
}

/// The counts are what can be read from the new point, as it stands on the published side: its sides across the line that are no borders, and
/// those that are links.
fn assert_counted(new: Point, d: usize, counts: reading::Counts) {
    let across = [new.sides[clockwise(d)], new.sides[anticlockwise(d)]];
    let count = |wanted: fn(&Side) -> bool| across.iter().filter(|side| wanted(side)).count() as u8;
    assert_eq!(count(|side| !side.is_border()), counts.opened);
    assert_eq!(count(|side| side.is_link()), counts.inferred);
}

/// The counts of points, each of whose links has its mirror.
fn counted(store: &reading::Store, listed: usize) -> Census {
    assert!(is_mirrored(store), "a link without its mirror: {:?}", store.points);
    Census::of(store, listed)
}

/// A call's bytes: its kind, its numbers and directions, its floats. A direct call's kind is 16 more than in a list of direct calls.
pub fn put_map_call(out: &mut Bytes, call: MapCall) {
    let mut at_place = |kind: u8, s: f64, t: f64| {
        out.byte(kind);
        out.float(s);
        out.float(t);
    };
    match call {
        MapCall::Insert { withdraws, con, direction, ratio, position } => {
            [if withdraws { 10 } else { 0 }, con, direction as u8].iter().for_each(|n| out.byte(*n));
            out.float(ratio);
            position.iter().for_each(|x| out.float(*x));
        }
        MapCall::Ray { point, direction, count } => {
            [1, point, direction as u8, count as u8].iter().for_each(|n| out.byte(*n))
        }
        MapCall::Knots { point } => [2, point].iter().for_each(|n| out.byte(*n)),
        MapCall::Evaluate { s, t } => at_place(3, s, t),
        MapCall::Generate => out.byte(4),
        MapCall::Openings => out.byte(5),
        MapCall::Lend { s, t } => at_place(6, s, t),
        MapCall::SetPoint { s, t } => at_place(7, s, t),
        MapCall::CellPoints { cell } => [8, cell].iter().for_each(|n| out.byte(*n)),
        MapCall::Counts => out.byte(9),
        MapCall::SetPull { point, pull } => {
            [11, point].iter().for_each(|n| out.byte(*n));
            out.float(pull);
        }
        MapCall::LentSetPoint { s, t } => at_place(12, s, t),
        MapCall::Direct(call) => {
            let start = out.0.len();
            put_call(out, call);
            out.0[start] += 16;
        }
    }
}

/// The openings' bytes: how many there are, then the point and the direction of each.
fn put_openings(out: &mut Bytes, openings: &[(u8, usize)]) {
    out.pair(openings.len() as u16);
    for &(n, d) in openings {
        out.byte(n);
        out.byte(d as u8);
    }
}

/// The counts' bytes: points made and listed, links, borders. The openings are counted where they are listed.
fn put_census(out: &mut Bytes, census: &Census) {
    out.byte(census.made as u8);
    out.byte(census.listed as u8);
    out.pair(census.links as u16);
    out.pair(census.borders as u16);
}

/// A cell's bytes: both words and the count.
pub fn put_cell(out: &mut Bytes, cell: &Cell) {
    cell.words.iter().for_each(|word| out.word(*word));
    out.byte(cell.count);
}

/// An answer's bytes: its number; of an insertion done or torn its counts; of any other that was not refused its floats, or its cell. The
/// openings and the counts have no number.
pub fn put_map_answer(out: &mut Bytes, answer: &MapAnswer) {
    match answer {
        MapAnswer::Direct(answer) => return put_answer(out, *answer),
        MapAnswer::Opened(openings) => return put_openings(out, openings),
        MapAnswer::Counted(census) => return put_census(out, census),
        _ => {}
    }
    out.byte(answer.number());
    match answer {
        MapAnswer::Inserted(Insertion::Done(counts) | Insertion::Torn(counts, _)) => {
            out.byte(counts.opened);
            out.byte(counts.inferred);
        }
        MapAnswer::Cast(Ok(entries)) => entries.iter().for_each(|x| out.float(*x)),
        MapAnswer::Knotted(Ok(knots)) => put_knots(out, knots),
        MapAnswer::Evaluated(Ok(value)) => {
            value.position.iter().for_each(|x| out.float(*x));
            out.float(value.weight);
        }
        MapAnswer::Reached(_, Ok(cell)) => put_cell(out, cell),
        _ => {}
    }
}

fn put_knots(out: &mut Bytes, knots: &Knots) {
    knots.s.iter().chain(&knots.t).for_each(|x| out.float(*x));
}

/// A map's bytes at the end of a list: its points, then for each point made whether it is listed, then whether knots are kept, then each
/// point's position and its pull, then the knots kept of each listed point.
pub fn put_map(out: &mut Bytes, map: &reading::Map) {
    put_points(out, &map.store.points);
    for point in 0..map.store.made() {
        out.byte(map.listed.contains(&(point as u8)) as u8);
    }
    out.byte(map.kept.is_some() as u8);
    for (position, pull) in map.positions.iter().zip(&map.pulls) {
        position.iter().chain([pull]).for_each(|x| out.float(*x));
    }
    map.kept.iter().flatten().for_each(|knots| put_knots(out, knots));
}
