//! Maps drawn at random. Ratios come from a few values and near misses of them, so that lines meet and links are inferred, and
//! some maps start with edits that lead to rings.
use crate::calls::Call;
use crate::index::LINES;
use crate::map_calls::{MapAnswer, MapCall, Maps};
use crate::random::Random;
use crate::reading::{CAPACITY, Map, TORN};

/// Edits (point, direction, ratio) after which rings are near.
pub const RING_PREFIXES: [&[(u8, usize, f64)]; 5] = [
    &[(3, 1, 0.0), (0, 1, 0.0), (4, 3, 0.5), (1, 3, 1.0), (6, 2, 0.25), (4, 2, 0.25)],
    &[(2, 2, 0.25), (0, 0, 0.75), (2, 2, 1.0), (0, 0, 1.0), (7, 2, 0.5), (7, 1, 0.5), (4, 3, 0.5)],
    &[(2, 2, 0.25), (0, 0, 0.75), (2, 2, 1.0), (0, 0, 1.0), (7, 1, 0.5), (4, 3, 0.5), (5, 0, 0.0)],
    &[(2, 2, 0.25), (0, 0, 0.75), (2, 2, 0.9999991), (0, 0, 0.9999999), (7, 2, 0.5), (7, 1, 0.5), (4, 3, 0.5)],
    &[(3, 1, 1e-7), (0, 1, 5e-7), (4, 3, 0.5), (1, 3, 1.0), (6, 2, 0.25), (4, 2, 0.25), (7, 3, 0.500002)],
];

/// A map and every call made on it.
pub struct MapList {
    pub maps: Maps,
    pub calls: Vec<(MapCall, MapAnswer)>,
}

impl MapList {
    pub fn new(corners: [[f64; 3]; 4], border: f64) -> MapList {
        MapList { maps: Maps::new(corners, border), calls: Vec::new() }
    }

    pub fn call(&mut self, call: MapCall) -> MapAnswer {
        let answer = self.maps.make(call);
        self.calls.push((call, answer.clone()));
        answer
    }

    /// Asks for a cell, where there is one to ask for.
    fn ask(&mut self, cell: Option<u8>) {
        if let Some(cell) = cell {
            self.call(MapCall::CellPoints { cell });
        }
    }

    pub fn insert(&mut self, random: &mut Random, con: u8, direction: usize, ratio: f64) -> MapAnswer {
        self.insert_by_rule(random, false, con, direction, ratio)
    }

    pub fn insert_or_withdraw(&mut self, random: &mut Random, con: u8, direction: usize, ratio: f64) -> MapAnswer {
        self.insert_by_rule(random, true, con, direction, ratio)
    }

    pub fn insert_by_rule(&mut self, random: &mut Random, withdraws: bool, con: u8, direction: usize, ratio: f64) -> MapAnswer {
        let position = position(random);
        self.call(MapCall::Insert { withdraws, con, direction, ratio, position })
    }

    /// Sets a pull: the answer's number.
    pub fn set_pull(&mut self, point: u8, pull: f64) -> u8 {
        self.call(MapCall::SetPull { point, pull }).number()
    }

    /// Sets a pull drawn for a point drawn.
    fn set_some_pull(&mut self, random: &mut Random, pulls: Pulls) {
        let point = pulled_point(random, &self.maps.reading);
        self.set_pull(point, pulls.next(random));
    }

    /// Four such settings, where pulls are set.
    fn set_some_pulls(&mut self, random: &mut Random, pulls: Pulls) {
        if pulls != Pulls::Never {
            (0..4).for_each(|_| self.set_some_pull(random, pulls));
        }
    }
}

fn coordinate(random: &mut Random) -> f64 {
    if random.one_in(60) { random.of(&[f64::INFINITY, f64::NAN, -3.5, 1e300, -0.0]) } else { random.unit() }
}

pub fn position(random: &mut Random) -> [f64; 3] {
    std::array::from_fn(|_| coordinate(random))
}

fn border(random: &mut Random) -> f64 {
    if random.one_in(3) {
        random.of(&[0.0, -0.0, 0.25, 0.5, 2.0, 1e-7, 1e-6, f64::INFINITY, -1.0, -0.25, f64::NAN])
    } else {
        1.0
    }
}

/// How the ratios of one map are drawn.
#[derive(Clone, Copy)]
pub enum Ratios {
    Quarters,
    Ends,
    NearMisses,
    Any,
}

pub fn ratio(random: &mut Random, ratios: Ratios) -> f64 {
    if random.one_in(40) {
        return random.of(&[-0.0, 2.0, -0.25, f64::NAN, f64::INFINITY, 1.0000000000000002, -5e-324]);
    }
    match ratios {
        Ratios::Quarters => random.of(&[0.0, 0.25, 0.5, 0.5, 0.75, 1.0]),
        Ratios::Ends => random.of(&[0.0, -0.0, 1.0, 0.5]),
        Ratios::NearMisses => random.of(&[
            0.0, 1e-6, 5e-7, 1e-7, 0.25, 0.250001, 0.5, 0.500001, 0.4999995, 0.500002, 0.75, 0.999999, 0.9999999, 1.0,
        ]),
        Ratios::Any => random.unit(),
    }
}

/// A listed point and a side of it that is a link, where a few draws find them.
pub fn place(random: &mut Random, maps: &Maps) -> (u8, usize) {
    if random.one_in(30) {
        return (random.below(256) as u8, random.below(4));
    }
    let listed = &maps.reading.listed;
    let mut found = (random.of(listed), random.below(4));
    for _ in 0..6 {
        if random.one_in(20) || maps.reading.store.side(found.0, found.1).is_link() {
            break;
        }
        found = (random.of(listed), random.below(4));
    }
    found
}

/// Which insertions of a map are withdrawn where they are torn.
#[derive(Clone, Copy, PartialEq)]
pub enum Withdrawing {
    Never,
    AtTimes,
    Always,
}

impl Withdrawing {
    /// Of the maps drawn one after the other, every third has some that are.
    pub fn of(place: usize) -> Withdrawing {
        if place % 3 == 2 { Withdrawing::AtTimes } else { Withdrawing::Never }
    }

    /// Whether the next insertion is.
    fn next(self, random: &mut Random) -> bool {
        match self {
            Withdrawing::Never => false,
            Withdrawing::AtTimes => random.one_in(2),
            Withdrawing::Always => true,
        }
    }
}

/// Pulls that are accepted.
pub const PULLS: [f64; 11] = [0.0, -0.0, 0.5, 2.0, 3.0, 1.0 / 3.0, 1e300, 5e-324, 1e-310, f64::MIN_POSITIVE, f64::MAX];

/// Pulls that are refused.
pub const REFUSED_PULLS: [f64; 7] = [-1.0, -0.5, -5e-324, f64::MIN, f64::INFINITY, f64::NEG_INFINITY, f64::NAN];

/// Which pulls are set on a map.
#[derive(Clone, Copy, PartialEq)]
pub enum Pulls {
    Never,
    /// 1.0, and such as are refused: the published Rust has the same values.
    Plain,
    Any,
}

impl Pulls {
    /// One map in four has some set.
    pub fn drawn(random: &mut Random) -> Pulls {
        if random.one_in(4) { random.of(&[Pulls::Plain, Pulls::Any, Pulls::Any]) } else { Pulls::Never }
    }

    /// The next pull. Huge and tiny ones are rare: beside them no other counts.
    fn next(self, random: &mut Random) -> f64 {
        match random.below(12) {
            0 => random.of(&REFUSED_PULLS),
            1..=3 if self == Pulls::Any => 2.0 * random.unit(),
            4..=6 if self == Pulls::Any => random.of(&[0.0, -0.0, 0.5, 2.0, 3.0]),
            7 if self == Pulls::Any => random.of(&PULLS),
            _ => 1.0,
        }
    }
}

/// A point whose pull is set: a listed one most often, one that is made and not listed where there is one, or any number.
pub fn pulled_point(random: &mut Random, map: &Map) -> u8 {
    let made = map.store.made();
    let unlisted: Vec<u8> = (0..made as u8).filter(|point| !map.listed.contains(point)).collect();
    match random.below(8) {
        0 => random.below(256) as u8,
        1 => random.below(made + 1) as u8,
        2 | 3 if !unlisted.is_empty() => random.of(&unlisted),
        _ => random.of(&map.listed),
    }
}

/// How many places are tried to find one where an insertion is torn.
const TRIES: usize = 20;

/// A place and a ratio at which an insertion is torn, where some draws find them.
fn torn_edit(random: &mut Random, maps: &Maps) -> Option<(u8, usize, f64)> {
    let draw = |_| {
        let (con, direction) = place(random, maps);
        (con, direction, random.of(&[0.0, -0.0, 1e-7, 5e-7, 0.9999999, 1.0]))
    };
    let is_torn = |&(con, direction, ratio): &(u8, usize, f64)| {
        maps.reading.clone().add_control_point([0.0; 3], con, direction, ratio).number() == TORN
    };
    (0..TRIES).map(draw).find(is_torn)
}

/// A direct call on a map's points: a link cut, joined again at some interval, a weight set, a border opened, a point made alone, its coordinates set.
fn direct_call(random: &mut Random, maps: &Maps) -> Call {
    let point = random.below(maps.made()) as u8;
    let other = random.below(maps.made()) as u8;
    let d = random.below(4);
    let interval = random.of(&[0.0, 0.25, 0.5, 1.0, 1.0, 1e-7, f64::INFINITY, f64::NAN]);
    match random.below(10) {
        0 => Call::Make(interval),
        1..=3 => Call::RemoveConnection(point, d),
        4 => Call::SetEdgeConWeight(point, d, random.of(&[0.0, 0.5, 1.0])),
        5 => Call::Navigate(point, d, random.below(4)),
        6 => Call::RemoveEdgeCondition(point, d),
        7 => Call::SetKnotCoordinates(maps.made() as u8 - 1, interval, random.of(&[0.0, 0.25, 1.0])),
        _ => {
            let open = (0..4).find(|side| maps.reading.store.side(point, *side).is_opening());
            Call::Connect(point, other, open.unwrap_or(d), interval)
        }
    }
}

/// Parameters on the map: at its edges, the floats beside these, and one in the middle.
pub const ON_MAP: [f64; 6] = [0.0, -0.0, 5e-324, 0.5, 0.9999999999999999, 1.0];

/// Parameters off it: the floats beside its edges first, then such as are further away.
pub const BEYOND_MAP: [f64; 12] = [
    -5e-324,
    1.0000000000000002,
    -0.5,
    -1.0,
    1.5,
    2.0,
    5.0,
    f64::MAX,
    f64::MIN,
    f64::INFINITY,
    f64::NEG_INFINITY,
    f64::NAN,
];

/// Places with each of some parameters across, upwards and both ways.
pub fn places(parameters: &[f64]) -> impl Iterator<Item = (f64, f64)> {
    parameters.iter().flat_map(|&x| [(x, 0.5), (0.5, x), (x, x)])
}

/// A parameter on the map, on a knot or at an edge as often as not, or off it.
pub fn parameter(random: &mut Random) -> f64 {
    match random.below(12) {
        0 => random.of(&BEYOND_MAP),
        1 => random.of(&ON_MAP),
        2..=6 => random.of(&[0.0, 0.125, 0.25, 0.375, 0.5, 0.75, 0.999999, 1.0]),
        _ => random.unit(),
    }
}

pub fn evaluation(random: &mut Random) -> MapCall {
    MapCall::Evaluate { s: parameter(random), t: parameter(random) }
}

/// The column or row that holds an outer knot, or the one below it.
fn at_end(random: &mut Random, knots: [f64; 5]) -> u8 {
    let end = random.of(&[knots[0], knots[4]]) * LINES as f64;
    (end.floor() - random.below(2) as f64).clamp(0.0, LINES as f64 - 1.0) as u8
}

/// A corner's cell, one on the border of what a listed point reaches, or any.
pub fn cell(random: &mut Random, map: &Map) -> u8 {
    let corners = [0, LINES - 1, LINES * (LINES - 1), u8::MAX];
    let point = random.of(&map.listed);
    match (random.below(4), map.store.point_knot_vectors(point)) {
        (0, _) => random.of(&corners),
        (1 | 2, Ok(knots)) => LINES * at_end(random, knots.t) + at_end(random, knots.s),
        _ => random.below(256) as u8,
    }
}

/// A call that asks the whole map, most often for a value.
pub fn question(random: &mut Random, map: &Map) -> MapCall {
    let (s, t) = (parameter(random), parameter(random));
    match random.below(12) {
        0 | 1 => MapCall::Generate,
        2 => MapCall::Openings,
        3 => MapCall::Lend { s, t },
        4 => MapCall::SetPoint { s, t },
        5 => MapCall::CellPoints { cell: cell(random, map) },
        6 => MapCall::Counts,
        7 => MapCall::LentSetPoint { s, t },
        _ => MapCall::Evaluate { s, t },
    }
}

/// An insertion where it was drawn, at a point, in a direction, at a ratio. Of a map with withdrawn insertions one in three is made where it is
/// torn instead.
fn insert_drawn(list: &mut MapList, random: &mut Random, withdrawing: Withdrawing, drawn: (u8, usize, f64)) -> MapAnswer {
    let tears = withdrawing != Withdrawing::Never && random.one_in(3);
    let (con, direction, ratio) = if tears { torn_edit(random, &list.maps).unwrap_or(drawn) } else { drawn };
    let withdraws = withdrawing.next(random);
    list.insert_by_rule(random, withdraws, con, direction, ratio)
}

/// What a map is drawn for.
#[derive(Clone, Copy)]
pub struct Plan {
    pub edits: usize,
    /// Whether the whole map is asked in between: for a value, its openings, its counts, the knots of all points, a cell.
    pub questions: bool,
    pub direct_calls: bool,
    pub withdrawing: Withdrawing,
    pub pulls: Pulls,
}

/// A map after random edits, asked in between and most often after torn ones, which keep the knots whether they stay or not. A cell is asked for before and after an edit,
/// and after a direct call or a setting that follows it. One edit in three is followed by a setting where pulls are set, and four settings come at the end.
pub fn map(random: &mut Random, plan: Plan) -> MapList {
    let corners = std::array::from_fn(|_| position(random));
    let mut list = MapList::new(corners, border(random));
    if random.one_in(4) {
        let prefix = random.of(&RING_PREFIXES);
        let length = if random.one_in(2) { prefix.len() } else { random.below(prefix.len()) };
        for &(con, direction, ratio) in &prefix[..length] {
            let withdraws = plan.withdrawing.next(random);
            list.insert_by_rule(random, withdraws, con, direction, ratio);
        }
    }
    let ratios = random.of(&[
        Ratios::Quarters,
        Ratios::Quarters,
        Ratios::Ends,
        Ratios::NearMisses,
        Ratios::NearMisses,
        Ratios::Any,
    ]);
    for _ in 0..plan.edits {
        let cell = (plan.questions && random.one_in(6)).then(|| cell(random, &list.maps.reading));
        list.ask(cell);
        let (con, direction) = place(random, &list.maps);
        let ratio = ratio(random, ratios);
        let torn = insert_drawn(&mut list, random, plan.withdrawing, (con, direction, ratio)).number() == TORN;
        if plan.questions && (random.one_in(8) || torn && random.one_in(2)) {
            let question = question(random, &list.maps.reading);
            list.call(question);
        }
        list.ask(cell);
        if plan.direct_calls && random.one_in(3) {
            let call = direct_call(random, &list.maps);
            list.call(MapCall::Direct(call));
            list.ask(cell);
            if random.one_in(4) {
                list.call(MapCall::Generate);
                list.call(evaluation(random));
                list.ask(cell);
            }
        }
        if plan.pulls != Pulls::Never && random.one_in(3) {
            list.set_some_pull(random, plan.pulls);
            list.ask(cell);
            if plan.questions && random.one_in(2) {
                list.call(evaluation(random));
            }
        }
    }
    list.set_some_pulls(random, plan.pulls);
    if plan.questions {
        list.call(evaluation(random));
        list.ask(Some(cell(random, &list.maps.reading)));
    }
    list
}

/// A map whose store is filled, and edits and settings beyond.
pub fn full_map(random: &mut Random, withdrawing: Withdrawing, pulls: Pulls) -> MapList {
    let plan = Plan { edits: 100, questions: false, direct_calls: false, withdrawing, pulls };
    let mut list = map(random, plan);
    let mut edits = 0;
    while edits < 600 && (list.maps.made() < CAPACITY || edits % 4 != 0) {
        let (con, direction) = place(random, &list.maps);
        let ratio = random.of(&[0.25, 0.5, 0.75]);
        insert_drawn(&mut list, random, withdrawing, (con, direction, ratio));
        edits += 1;
    }
    list.set_some_pulls(random, pulls);
    list
}
