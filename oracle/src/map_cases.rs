//! Lists of calls on whole maps, each with the answer of every call and the map at the end.
use crate::bytes::Bytes;
use crate::calls::Call;
use crate::draw::{
    BEYOND_MAP, MapList, ON_MAP, Plan, Pulls, REFUSED_PULLS, RING_PREFIXES, Withdrawing, cell, evaluation, full_map, map, places, question,
};
use crate::index::{Cell, LINES};
use crate::ledger::Census;
use crate::map_calls::{MapAnswer, MapCall, put_map, put_map_answer, put_map_call};
use crate::map_file::{SAMPLES, bits, sample};
use crate::random::Random;
use crate::reading::{
    BORDER, CAPACITY, DOWN, FOREIGN, FULL, INTERVAL, Insertion, Knots, LEFT, NO_POINT, NO_WEIGHT, OFF_MAP, OPEN_SIDE, PULL, RATIO, RIGHT,
    RING, TORN, UP, Value,
};

const ALL_RAYS: usize = 24;
const SOME_RAYS: usize = 147;
const DIRECT_CALLS: usize = 60;
const FULL_STORES: usize = 6;
const EVERY_LENGTH: [usize; 6] = [0, 1, 2, 3, 4, 5];

pub const SQUARE: [[f64; 3]; 4] = [[0.0, 0.0, 0.0], [1.0, 0.0, 0.0], [1.0, 1.0, 1.0], [0.0, 1.0, 1.0]];

/// Edits after which a cap decides: the search and the approach of a ray that end with the last move allowed, or need one more.
pub const AT_THE_CAPS: [&[(u8, usize, f64)]; 5] = [
    &[
        (3, 1, 3e-7),
        (0, 1, 0.0),
        (4, 3, 0.5),
        (1, 3, 1.0),
        (6, 2, 0.25),
        (4, 2, 0.25),
        (7, 3, 3e-7),
        (6, 1, 9e-7),
        (3, 1, 5e-7),
    ],
    &[(3, 1, 5e-7), (0, 1, 0.0), (4, 3, 0.5), (1, 3, 1.0), (6, 2, 0.25), (4, 2, 0.25), (4, 3, 0.0), (0, 1, 2e-6)],
    &[
        (2, 2, 0.25),
        (0, 0, 0.75),
        (2, 2, 0.9999991),
        (0, 0, 0.9999999),
        (7, 2, 0.5),
        (7, 1, 0.5),
        (4, 3, 0.5),
        (10, 0, 1e-7),
        (2, 2, 0.99999),
        (5, 2, 5e-6),
    ],
    &[
        (2, 2, 0.25),
        (0, 0, 0.75),
        (2, 2, 1.0),
        (0, 0, 0.9999999),
        (7, 2, 2e-6),
        (7, 1, 0.5),
        (4, 3, 0.5),
        (10, 1, 5e-6),
        (11, 3, 0.5),
        (8, 0, 1.0),
    ],
    &[
        (2, 2, 0.25),
        (0, 0, 0.75),
        (2, 2, 0.9999991),
        (0, 0, 0.9999999),
        (7, 2, 0.5),
        (7, 1, 0.5),
        (4, 3, 0.5),
        (4, 2, 9e-7),
        (7, 2, 2e-6),
        (2, 2, 0.999995),
    ],
];

/// Edits after which a ray goes around a second opening and is then nearer to a point than it would be otherwise.
pub const AROUND_TWICE: &[(u8, usize, f64)] = &[
    (1, 0, 0.25),
    (2, 3, 0.5),
    (1, 3, 0.5),
    (3, 1, 0.25),
    (6, 0, 0.25),
    (6, 3, 0.75),
    (7, 3, 0.5),
    (7, 3, 0.5),
    (4, 0, 0.5),
    (3, 2, 0.75),
    (1, 3, 0.5),
    (0, 0, 0.25),
    (14, 1, 0.5),
    (9, 3, 0.25),
    (4, 3, 0.5),
    (11, 3, 0.75),
    (15, 0, 0.25),
    (11, 2, 0.75),
    (18, 1, 0.25),
    (21, 3, 0.75),
    (21, 2, 0.75),
];

/// Edits, one of them torn, that leave another map where it is withdrawn than where it stays.
pub const WITHDRAWN: [&[(u8, usize, f64)]; 4] = [FAR_END, INFERRED, NUMBER_AGAIN, PAST_A_RING];

/// Two lines that miss each other are joined, which moves point 4 across. The torn edit is its neighbour, and places it anew.
const FAR_END: &[(u8, usize, f64)] = &[(0, RIGHT, 0.5), (3, RIGHT, 0.5000009), (0, RIGHT, 0.0)];

/// The torn edit is joined to point 4 on its first side, which moves point 4 across, and the search on its second side fails.
const INFERRED: &[(u8, usize, f64)] = &[(0, RIGHT, 1.5e-6), (0, UP, 0.5), (1, UP, 0.5), (5, RIGHT, 9e-7)];

/// Where the first edit is withdrawn, the second has its number.
const NUMBER_AGAIN: &[(u8, usize, f64)] = &[(0, RIGHT, 0.0), (0, RIGHT, 0.5), (4, RIGHT, 0.5), (3, RIGHT, 0.5)];

/// The last edit but one is torn by a ring.
const PAST_A_RING: &[(u8, usize, f64)] =
    &[(2, 2, 0.25), (0, 0, 0.75), (2, 2, 1.0), (0, 0, 1.0), (7, 1, 0.5), (4, 3, 0.5), (5, 0, 0.0), (1, 0, 0.5)];

fn square() -> MapList {
    MapList::new(SQUARE, 1.0)
}

/// The counts of a map: points made, points listed, links, borders, openings.
fn counts(list: &mut MapList) -> [usize; 5] {
    let MapAnswer::Counted(counted) = list.call(MapCall::Counts) else { unreachable!() };
    let Census { made, listed, links, borders, openings } = counted;
    [made, listed, links, borders, openings]
}

/// The readings that the description of the behaviour works out, on the square map with border 1.0.
fn worked_examples(random: &mut Random) -> Vec<MapList> {
    let insert = |list: &mut MapList, random: &mut Random, edits: &[(u8, usize, f64)]| {
        for &(con, direction, ratio) in edits {
            list.insert(random, con, direction, ratio);
        }
    };
    let mut fresh = square();
    for point in 0..5 {
        fresh.call(MapCall::Knots { point });
    }
    for count in 0..4 {
        fresh.call(MapCall::Ray { point: 0, direction: LEFT, count });
    }
    for (s, t) in [(0.5, 0.5), (0.0, 1.0), (f64::NAN, 0.5)] {
        fresh.call(MapCall::Evaluate { s, t });
    }
    let MapAnswer::Evaluated(Ok(outside)) = fresh.call(MapCall::Evaluate { s: 5.0, t: 0.5 }) else { unreachable!() };
    assert_eq!(outside.weight, 0.0);
    for (set_point, _) in SET_POINTS {
        assert_eq!(fresh.call(set_point(5.0, 0.5)).number(), OFF_MAP);
        assert_eq!(fresh.call(set_point(0.5, 0.5)).number(), 0);
    }
    fresh.call(MapCall::Lend { s: 0.5, t: 0.5 });
    fresh.call(MapCall::Openings);
    assert_eq!(counts(&mut fresh), [4, 4, 4, 8, 0]);
    insert(&mut fresh, random, &[(0, LEFT, 0.5), (0, RIGHT, 2.0), (4, RIGHT, 0.5), (255, UP, 0.5)]);

    let mut at_one = square();
    insert(&mut at_one, random, &[(0, RIGHT, 1.0)]);
    assert_eq!(counts(&mut at_one), [5, 5, 5, 9, 1]);

    let mut torn = square();
    let before = torn.call(MapCall::Evaluate { s: 0.25, t: 0.75 });
    insert(&mut torn, random, &[(0, RIGHT, 0.0), (4, RIGHT, 0.5)]);
    assert_same_value(&before, &torn.call(MapCall::Evaluate { s: 0.25, t: 0.75 }));
    torn.call(MapCall::Openings);
    assert_eq!(counts(&mut torn), [5, 4, 5, 9, 1]);
    assert_same_value(&before, &torn.call(MapCall::Lend { s: 0.25, t: 0.75 }));

    let mut inferred = square();
    insert(&mut inferred, random, &[(0, RIGHT, 0.5)]);
    inferred.call(MapCall::Ray { point: 4, direction: UP, count: 2 });
    assert_eq!(counts(&mut inferred), [5, 5, 5, 9, 1]);
    insert(&mut inferred, random, &[(3, RIGHT, 0.5)]);
    assert_eq!(counts(&mut inferred), [6, 6, 7, 10, 0]);

    let mut infinite = square();
    infinite.call(MapCall::Direct(Call::RemoveConnection(0, RIGHT)));
    infinite.call(MapCall::Direct(Call::Connect(0, 1, RIGHT, f64::INFINITY)));
    assert_eq!(infinite.insert(random, 0, RIGHT, 0.5).number(), INTERVAL);
    insert(&mut infinite, random, &[(1, LEFT, 0.0)]);
    infinite.call(MapCall::Direct(Call::RemoveConnection(3, DOWN)));
    infinite.call(MapCall::Direct(Call::Connect(3, 0, DOWN, f64::NAN)));
    insert(&mut infinite, random, &[(3, DOWN, 0.5), (0, UP, 1.0), (2, LEFT, 0.25)]);
    infinite.call(MapCall::Evaluate { s: 0.5, t: 0.5 });
    let mut lists = vec![square(), fresh, at_one, torn, inferred, infinite, refused_knots(), no_knots(), full_line(random), all_open()];
    lists.extend([all_linked(), counts_between(random), of_sample(SAMPLES[0])]);
    lists.extend([cells_kept(random), cells_refused(), cells_between(random), cells_of_grid(random)]);
    lists.extend(CELL_BORDERS.map(|border| cells_of_border(random, border)));
    lists.extend([withdrawn_kept(random), withdrawn_inferred(random), withdrawn_far_end(random), withdrawn_number(random)]);
    lists.extend([withdrawn_full(random), withdrawing_refused(random), of_sample(SAMPLES[1])]);
    lists.extend(WITHDRAWN.map(|edits| edited(random, true, edits, &[2, 5])));
    lists.extend([pulled_kept(random), pulled_unlisted(random), pulled_new(random), pulls_refused(), no_pull(), largest_pulls()]);
    lists.extend([infinite_weight(random), pulled_order(), pulls_lent(random), pulls_withdrawn(random), pulled_full(random)]);
    lists
}

type SetPoint = fn(f64, f64) -> MapCall;

/// The call on a map, and the one on the map lent, each with whether the map is lent: that builds the knots where none are kept, before the place is looked at.
const SET_POINTS: [(SetPoint, bool); 2] = [(|s, t| MapCall::SetPoint { s, t }, false), (|s, t| MapCall::LentSetPoint { s, t }, true)];

/// Lists with set-points on the map, at its edges, beside them and off it.
fn set_points(random: &mut Random) -> Vec<MapList> {
    let mut lists = vec![every_place(random)];
    for (set_point, is_lent) in SET_POINTS {
        lists.extend([none_kept_beyond(set_point, is_lent), kept_beyond(random, set_point)]);
        lists.extend([cells_built_beyond(random, set_point, is_lent), cells_kept_beyond(random, set_point)]);
        lists.push(no_weight_beyond(set_point, is_lent));
    }
    lists.extend(refused_beyond(random));
    lists.extend([0.0, -0.25, f64::INFINITY, f64::NAN].map(places_of_border));
    lists
}

/// Every pair of parameters on the map and off it. A value is had at each, lent or not, and off the map too it has a weight at some; a set-point is had on
/// the map alone. −0.0 is 0.
fn every_place(random: &mut Random) -> MapList {
    let mut list = square();
    assert_eq!(list.insert(random, 0, RIGHT, 0.5).number(), 0);
    let parameters = || ON_MAP.iter().map(|x| (*x, true)).chain(BEYOND_MAP.iter().map(|x| (*x, false)));
    for ((s, on_map_across), (t, on_map_up)) in parameters().flat_map(|across| parameters().map(move |up| (across, up))) {
        let value = list.call(MapCall::Evaluate { s, t });
        assert_same_value(&value, &list.call(MapCall::Lend { s, t }));
        for (set_point, _) in SET_POINTS {
            let answer = list.call(set_point(s, t));
            if on_map_across && on_map_up {
                assert_same_value(&value, &answer);
            } else {
                assert_eq!(answer.number(), OFF_MAP);
            }
        }
    }
    assert!(value_at(&mut list, (-0.5, 1.5)).weight > 0.0);
    assert_eq!(bits(&value_at(&mut list, (-0.0, -0.0))), bits(&value_at(&mut list, (0.0, 0.0))));
    list
}

/// Asks for set-points off the map, which are all refused.
fn ask_beyond(list: &mut MapList, set_point: SetPoint) {
    for (s, t) in places(&BEYOND_MAP) {
        assert_eq!(list.call(set_point(s, t)).number(), OFF_MAP);
    }
}

/// No knots are kept before set-points off the map. The list ends with them: none are kept then, unless the map was lent.
fn none_kept_beyond(set_point: SetPoint, is_lent: bool) -> MapList {
    let mut list = square();
    ask_beyond(&mut list, set_point);
    assert_eq!(list.maps.reading.kept.is_some(), is_lent);
    list
}

/// The knots kept are those of before a torn insertion, and built anew they are others. The list ends with set-points off the map, which leave them.
fn kept_beyond(random: &mut Random, set_point: SetPoint) -> MapList {
    let mut list = square();
    assert_eq!(list.insert(random, 0, RIGHT, 0.5).number(), 0);
    value_at(&mut list, AT);
    assert_eq!(list.insert(random, 0, RIGHT, 0.0).number(), TORN);
    let knots = |kept: &Option<Vec<Knots>>| kept.iter().flatten().map(|row| (row.s, row.t)).collect::<Vec<_>>();
    let before = knots(&list.maps.reading.kept);
    ask_beyond(&mut list, set_point);
    assert_eq!(knots(&list.maps.reading.kept), before);
    let mut built = list.maps.reading.clone();
    assert_eq!(built.generate_knot_vectors(), Ok(()));
    assert_ne!(knots(&built.kept), before);
    list
}

/// The cell that corner 0 reaches until a torn insertion stands beside it, and the points that reach it then.
const REACHED_BY_CORNER: u8 = 15;
const AFTER_TORN: Cell = Cell { words: [30, 0], count: 4 };

/// Set-points off the map while no knots are kept, and then a torn insertion: knots and index are those of after it, unless the map was lent before.
fn cells_built_beyond(random: &mut Random, set_point: SetPoint, is_lent: bool) -> MapList {
    let mut list = square();
    assert_eq!(list.insert(random, 0, RIGHT, 0.5).number(), 0);
    ask_beyond(&mut list, set_point);
    assert_eq!(list.insert(random, 0, RIGHT, 0.0).number(), TORN);
    assert_eq!(reached(&mut list, REACHED_BY_CORNER) == AFTER_TORN, !is_lent);
    value_at(&mut list, AT);
    list
}

/// The index kept is that of before a torn insertion, also after set-points off the map, and built anew it is another.
fn cells_kept_beyond(random: &mut Random, set_point: SetPoint) -> MapList {
    let mut list = square();
    assert_eq!(list.insert(random, 0, RIGHT, 0.5).number(), 0);
    let before = reached(&mut list, REACHED_BY_CORNER);
    assert_eq!(list.insert(random, 0, RIGHT, 0.0).number(), TORN);
    ask_beyond(&mut list, set_point);
    assert_eq!(reached(&mut list, REACHED_BY_CORNER), before);
    assert_eq!(list.call(MapCall::Generate).number(), 0);
    assert_eq!(reached(&mut list, REACHED_BY_CORNER), AFTER_TORN);
    list
}

/// A map without weight: off it a set-point is 20, and on it 15. The list ends with the first 15, after which the knots are kept.
fn no_weight_beyond(set_point: SetPoint, is_lent: bool) -> MapList {
    let mut list = square();
    for point in 0..4 {
        assert_eq!(list.set_pull(point, 0.0), 0);
    }
    ask_beyond(&mut list, set_point);
    assert_eq!(list.maps.reading.kept.is_some(), is_lent);
    assert_eq!(list.call(set_point(1.0, -0.0)).number(), NO_WEIGHT);
    assert!(list.maps.reading.kept.is_some());
    list
}

/// Maps whose knots are refused, by an opening, a border and a ring, and none are kept. On the map a set-point is refused as they are, and off it it is
/// 20, with which the list ends. Such a map cannot be lent: by the call on the map lent it is refused so everywhere.
fn refused_beyond(random: &mut Random) -> [MapList; 3] {
    let cut = |calls: [Call; 2]| {
        let mut list = square();
        for call in calls {
            assert_eq!(list.call(MapCall::Direct(call)).number(), 0);
        }
        list
    };
    let mut ring = square();
    for &(con, direction, ratio) in RING_PREFIXES[1] {
        assert_eq!(ring.insert(random, con, direction, ratio).number(), 0);
    }
    let open_side = cut([Call::RemoveEdgeCondition(3, UP), Call::RemoveEdgeCondition(3, LEFT)]);
    let border = cut([Call::RemoveConnection(0, RIGHT), Call::RemoveConnection(3, RIGHT)]);
    [(open_side, OPEN_SIDE), (border, BORDER), (ring, RING)].map(|(mut list, number)| {
        for (s, t) in places(&ON_MAP).chain(places(&BEYOND_MAP)) {
            assert_eq!(list.call(MapCall::LentSetPoint { s, t }).number(), number);
        }
        for (s, t) in places(&ON_MAP) {
            assert_eq!(list.call(MapCall::SetPoint { s, t }).number(), number);
        }
        ask_beyond(&mut list, SET_POINTS[0].0);
        assert!(list.maps.reading.kept.is_none());
        list
    })
}

/// Borders with which places on the map have no weight: with 0.0 those at its edges, and with an infinite one or NaN all. Off it a set-point is 20.
fn places_of_border(border: f64) -> MapList {
    let mut list = MapList::new(SQUARE, border);
    for (set_point, _) in SET_POINTS {
        for (s, t) in places(&ON_MAP) {
            let number = list.call(set_point(s, t)).number();
            assert!([0, NO_WEIGHT].contains(&number));
            let at_edge = [s, t].iter().any(|x| *x == 0.0 || *x == 1.0);
            assert!(number == NO_WEIGHT || border.is_finite() && !(border == 0.0 && at_edge));
            assert!(number == 0 || !(border == 0.0 && (s, t) == (0.5, 0.5)));
        }
        ask_beyond(&mut list, set_point);
    }
    list
}

const AT: (f64, f64) = (0.25, 0.75);

fn value_at(list: &mut MapList, (s, t): (f64, f64)) -> Value {
    let MapAnswer::Evaluated(Ok(value)) = list.call(MapCall::Evaluate { s, t }) else { panic!("a refusal") };
    value
}

/// A setting leaves the knots kept and their index, here those of before a torn insertion: built anew they are others. The pull set last
/// stands. At the end, where an insertion is done, no knots are kept, and none are kept after a setting.
fn pulled_kept(random: &mut Random) -> MapList {
    let mut list = square();
    assert_eq!(list.insert(random, 0, RIGHT, 0.5).number(), 0);
    let (plain, cell) = (bits(&value_at(&mut list, AT)), reached(&mut list, 15));
    assert_eq!(list.insert(random, 0, RIGHT, 0.0).number(), TORN);
    for (pull, number, same) in [(2.0, 0, false), (f64::NAN, PULL, false), (3.0, 0, false), (1.0, 0, true), (1.0, 0, true)] {
        assert_eq!(list.set_pull(0, pull), number);
        assert_eq!(bits(&value_at(&mut list, AT)) == plain, same);
        assert_eq!(reached(&mut list, 15), cell);
    }
    assert_eq!(list.set_pull(4, 0.5), 0);
    assert_eq!(list.call(MapCall::Generate).number(), 0);
    assert_ne!(reached(&mut list, 15), cell);
    assert_eq!(list.set_pull(4, 1.0), 0);
    assert_ne!(bits(&value_at(&mut list, AT)), plain);
    assert_eq!(list.insert(random, 2, DOWN, 0.5).number(), 0);
    assert_eq!(list.set_pull(1, 3.0), 0);
    assert!(list.maps.reading.kept.is_none());
    list
}

/// The pulls of a torn point and of one made alone: no value depends on them.
fn pulled_unlisted(random: &mut Random) -> MapList {
    let mut list = square();
    assert_eq!(list.insert(random, 0, RIGHT, 0.0).number(), TORN);
    assert_eq!(list.call(MapCall::Direct(Call::Make(1.0))).number(), 0);
    let plain = bits(&value_at(&mut list, AT));
    for point in [4, 5] {
        assert_eq!(list.set_pull(point, f64::MAX), 0);
        assert_eq!(bits(&value_at(&mut list, AT)), plain);
    }
    list
}

/// A number never made has no pull to be set. The point that has it then, of an insertion done, torn, or withdrawn first, or made alone, has the pull 1.0.
fn pulled_new(random: &mut Random) -> MapList {
    let mut list = square();
    let refused = |list: &mut MapList| {
        let next = list.maps.made() as u8;
        assert_eq!(list.set_pull(next, 2.0), NO_POINT);
    };
    refused(&mut list);
    assert_eq!(list.insert(random, 0, RIGHT, 0.5).number(), 0);
    value_at(&mut list, AT);
    refused(&mut list);
    assert_eq!(list.insert(random, 0, RIGHT, 0.0).number(), TORN);
    refused(&mut list);
    assert_eq!(list.insert_or_withdraw(random, 0, RIGHT, 0.0).number(), TORN);
    refused(&mut list);
    assert_eq!(list.insert_or_withdraw(random, 4, RIGHT, 0.5).number(), 0);
    refused(&mut list);
    assert_eq!(list.call(MapCall::Direct(Call::Make(1.0))).number(), 0);
    value_at(&mut list, AT);
    list
}

/// 11 before 17, and the value as it was after either; −0.0 is accepted, and leaves a point out as 0.0 does.
fn pulls_refused() -> MapList {
    let mut list = square();
    assert_eq!(list.set_pull(2, 0.5), 0);
    let before = bits(&value_at(&mut list, AT));
    for pull in REFUSED_PULLS {
        for (point, number) in [(4, NO_POINT), (127, NO_POINT), (128, NO_POINT), (255, NO_POINT), (2, PULL)] {
            assert_eq!(list.set_pull(point, pull), number);
            assert_eq!(bits(&value_at(&mut list, AT)), before);
        }
    }
    let left_out = [-0.0, 0.0].map(|pull| {
        assert_eq!(list.set_pull(2, pull), 0);
        bits(&value_at(&mut list, AT))
    });
    assert_eq!(left_out[0], left_out[1]);
    assert_eq!(list.set_pull(2, -0.0), 0);
    list
}

/// With every pull 0.0 or −0.0 no weight is left; with one point's pull back, the value is that point's position.
fn no_pull() -> MapList {
    let mut list = square();
    let (s, t) = AT;
    for (point, pull) in [(0, 0.0), (1, -0.0), (2, 0.0), (3, 0.0)] {
        assert_eq!(list.call(MapCall::SetPoint { s, t }).number(), 0);
        assert_eq!(list.set_pull(point, pull), 0);
    }
    assert!(value_at(&mut list, AT).weight == 0.0);
    assert_eq!(list.call(MapCall::SetPoint { s, t }).number(), NO_WEIGHT);
    assert_eq!(list.set_pull(3, 1.0), 0);
    assert_eq!(value_at(&mut list, AT).position, SQUARE[3]);
    assert_eq!(list.call(MapCall::SetPoint { s, t }).number(), 0);
    list
}

/// The largest pulls: on the square the weights add up to a finite one, and a position outside of 0 to 1 makes the sum of its axis infinite.
fn largest_pulls() -> MapList {
    let mut list = MapList::new([[0.0, 0.0, 10.0], SQUARE[1], SQUARE[2], SQUARE[3]], 1.0);
    for point in 0..4 {
        assert_eq!(list.set_pull(point, f64::MAX), 0);
    }
    let MapAnswer::Evaluated(Ok(value)) = list.call(MapCall::SetPoint { s: 0.5, t: 0.5 }) else { panic!("a refusal") };
    assert_eq!(value.position.map(f64::is_finite), [true, true, false]);
    list
}

/// On a map with a total weight above 1 the largest pulls make it infinite, which is no weight.
fn infinite_weight(random: &mut Random) -> MapList {
    let mut list = square();
    let (s, t) = (0.5, 0.5);
    for (direction, ratio) in [(RIGHT, 0.5), (UP, 0.25)] {
        assert_eq!(list.insert(random, 0, direction, ratio).number(), 0);
    }
    assert!(value_at(&mut list, (s, t)).weight > 1.0);
    for point in 0..6 {
        assert_eq!(list.set_pull(point, f64::MAX), 0);
    }
    assert_eq!(value_at(&mut list, (s, t)).weight, f64::INFINITY);
    assert_eq!(list.call(MapCall::SetPoint { s, t }).number(), NO_WEIGHT);
    list
}

/// Settings on a full store, whose points stand at even distances, so that each counts in the value beside it; the numbers behind them are never made.
fn pulled_full(random: &mut Random) -> MapList {
    let mut list = filled_line(random, |left| 1.0 / (left + 1) as f64);
    for (point, number) in [(63, 0), (64, 0), (127, 0), (128, NO_POINT), (255, NO_POINT)] {
        let (s, t) = ((point.min(127) - 3) as f64 / 125.0, 0.25);
        let before = list.call(MapCall::Evaluate { s, t });
        assert_eq!(list.set_pull(point, 3.0), number);
        let after = list.call(MapCall::Evaluate { s, t });
        assert_eq!(same_answers(&before, &after), number != 0);
        assert_same_value(&after, &list.call(MapCall::Lend { s, t }));
    }
    list
}

/// The basis product is rounded before the pull is multiplied in: with the smallest pull it decides whether a weight is left.
fn pulled_order() -> MapList {
    let mut list = square();
    for point in 0..4 {
        assert_eq!(list.set_pull(point, 5e-324), 0);
    }
    for (s, t) in [(0.5, 0.5), AT, (0.125, 0.625), (0.0, 0.0), (0.75, 0.875)] {
        value_at(&mut list, (s, t));
    }
    list
}

/// Pulls are lent with the positions, and a lent value is the same as another.
fn pulls_lent(random: &mut Random) -> MapList {
    let mut list = square();
    assert_eq!(list.insert(random, 0, RIGHT, 0.5).number(), 0);
    for (point, pull) in [(0, 3.0), (1, 0.1), (2, 1.7), (3, 1e300), (4, 0.0), (3, 0.7), (4, 5.0)] {
        assert_eq!(list.set_pull(point, pull), 0);
        for (s, t) in [AT, (0.5, 0.5)] {
            let value = list.call(MapCall::Evaluate { s, t });
            assert_same_value(&value, &list.call(MapCall::Lend { s, t }));
        }
    }
    list
}

/// The pulls set before a withdrawn insertion stay, and so do those set before one that is done.
fn pulls_withdrawn(random: &mut Random) -> MapList {
    let mut list = square();
    for (point, pull) in [(0, 3.0), (2, 0.3)] {
        assert_eq!(list.set_pull(point, pull), 0);
    }
    let before = bits(&value_at(&mut list, AT));
    assert_eq!(list.insert_or_withdraw(random, 0, RIGHT, 0.0).number(), TORN);
    assert_eq!(bits(&value_at(&mut list, AT)), before);
    assert_eq!(list.set_pull(4, 2.0), NO_POINT);
    assert_eq!(list.insert_or_withdraw(random, 0, RIGHT, 0.5).number(), 0);
    value_at(&mut list, AT);
    assert_eq!(list.maps.reading.pulls, [3.0, 1.0, 0.3, 1.0, 1.0]);
    list
}

fn same_answers(before: &MapAnswer, after: &MapAnswer) -> bool {
    let bytes = |answer| {
        let mut out = Bytes::default();
        put_map_answer(&mut out, answer);
        out.0
    };
    bytes(before) == bytes(after)
}

/// A torn insertion is withdrawn where knots are kept: all is as before, also with the knots built anew. Then it stays, which leaves the knots kept, now
/// those of before it, and is withdrawn once more: they and their index are still kept, and built anew they are others. Before, no knots are kept, and
/// none are kept after a withdrawn insertion.
fn withdrawn_kept(random: &mut Random) -> MapList {
    let mut list = square();
    assert_eq!(list.insert_or_withdraw(random, 0, RIGHT, 0.0).number(), TORN);
    assert!(list.maps.reading.kept.is_none());
    assert_eq!(list.insert(random, 0, RIGHT, 0.5).number(), 0);
    let questions = [MapCall::Evaluate { s: 0.25, t: 0.75 }, MapCall::CellPoints { cell: 15 }, MapCall::Openings, MapCall::Counts];
    let ask = |list: &mut MapList| questions.map(|question| list.call(question));
    let unchanged = |list: &mut MapList, before: &[MapAnswer]| ask(list).iter().zip(before).all(|(after, before)| same_answers(before, after));
    let before = ask(&mut list);
    assert_eq!(list.insert_or_withdraw(random, 0, RIGHT, 0.0).number(), TORN);
    assert!(unchanged(&mut list, &before));
    assert_eq!(list.call(MapCall::Generate).number(), 0);
    assert!(unchanged(&mut list, &before));
    assert_eq!(list.insert(random, 0, RIGHT, 0.0).number(), TORN);
    assert_eq!(list.insert_or_withdraw(random, 0, RIGHT, 0.0).number(), TORN);
    let by_knots_kept = |list: &mut MapList| [0, 1].map(|place| same_answers(&before[place], &list.call(questions[place])));
    assert_eq!(by_knots_kept(&mut list), [true, true]);
    assert_eq!(list.call(MapCall::Generate).number(), 0);
    assert_eq!(by_knots_kept(&mut list), [false, false]);
    list
}

/// The last of some edits is torn with these counts and withdrawn, and then made again to stay: point 4 is moved across only then.
fn withdrawn_and_moved(random: &mut Random, edits: &[(u8, usize, f64)], opened: u8, inferred: u8) -> MapList {
    let mut list = square();
    let (&(con, direction, ratio), before) = edits.split_last().expect("an edit");
    for &(con, direction, ratio) in before {
        assert_eq!(list.insert_or_withdraw(random, con, direction, ratio).number(), 0);
    }
    let knots = MapCall::Knots { point: 4 };
    let coordinates = |list: &MapList| list.maps.reading.store.points[4].coordinates;
    let (place, placed, counted) = (coordinates(&list), list.call(knots), counts(&mut list));
    let value = list.call(MapCall::Evaluate { s: 0.25, t: 0.75 });
    let MapAnswer::Inserted(Insertion::Torn(answer, _)) = list.insert_or_withdraw(random, con, direction, ratio) else { panic!("not torn") };
    assert_eq!((answer.opened, answer.inferred), (opened, inferred));
    assert_same_value(&value, &list.call(MapCall::Evaluate { s: 0.25, t: 0.75 }));
    assert!(same_answers(&placed, &list.call(knots)));
    assert_eq!(counts(&mut list), counted);
    assert_eq!(list.insert(random, con, direction, ratio).number(), TORN);
    assert_ne!(coordinates(&list), place);
    list.call(knots);
    list
}

fn withdrawn_inferred(random: &mut Random) -> MapList {
    withdrawn_and_moved(random, INFERRED, 2, 1)
}

fn withdrawn_far_end(random: &mut Random) -> MapList {
    withdrawn_and_moved(random, FAR_END, 1, 0)
}

/// After a withdrawn insertion the next one that is done has its number, and is listed.
fn withdrawn_number(random: &mut Random) -> MapList {
    let mut list = square();
    for (con, ratio, number, made) in [(0, 0.0, TORN, 4), (4, 0.5, FOREIGN, 4), (0, 0.5, 0, 5), (4, 0.0, 0, 6), (4, 0.5, 0, 7)] {
        assert_eq!(list.insert_or_withdraw(random, con, RIGHT, ratio).number(), number);
        assert_eq!(list.maps.made(), made);
    }
    assert_eq!(list.maps.reading.listed, [0, 1, 2, 3, 4, 5, 6]);
    list.call(MapCall::Evaluate { s: 0.5, t: 0.5 });
    list
}

/// A store with room for one point more: a withdrawn insertion leaves it, and one that is done takes it. A full store is 10 by either rule.
fn withdrawn_full(random: &mut Random) -> MapList {
    let mut list = square();
    while list.maps.made() < CAPACITY - 1 {
        let con = random.of(&list.maps.reading.listed);
        list.insert_or_withdraw(random, con, RIGHT, 0.5);
    }
    for (ratio, number) in [(0.0, TORN), (0.5, 0), (0.0, FULL)] {
        assert_eq!(list.insert_or_withdraw(random, 0, RIGHT, ratio).number(), number);
    }
    assert_eq!(list.insert(random, 0, RIGHT, 0.0).number(), FULL);
    list
}

/// An insertion that would be withdrawn is refused as any is.
fn withdrawing_refused(random: &mut Random) -> MapList {
    let mut list = square();
    for (con, direction, ratio, number) in [
        (0, RIGHT, 0.5, 0),
        (0, RIGHT, 2.0, RATIO),
        (5, RIGHT, 0.5, FOREIGN),
        (255, RIGHT, 0.5, FOREIGN),
        (4, UP, 0.5, OPEN_SIDE),
        (0, LEFT, 0.5, BORDER),
    ] {
        assert_eq!(list.insert_or_withdraw(random, con, direction, ratio).number(), number);
    }
    for call in [Call::RemoveConnection(3, RIGHT), Call::Connect(3, 2, RIGHT, f64::INFINITY)] {
        assert_eq!(list.call(MapCall::Direct(call)).number(), 0);
    }
    assert_eq!(list.insert_or_withdraw(random, 3, RIGHT, 0.5).number(), INTERVAL);
    list
}

/// The cells at the corners of the grid.
const CORNERS: [u8; 4] = [0, 15, 240, 255];

/// A row and a column in the middle of the grid.
const MIDDLE: u8 = 7;

/// Borders with which outer knots fall, are infinite or NaN, stand on lines of the grid, next to 0, or far away.
const CELL_BORDERS: [f64; 11] =
    [f64::INFINITY, f64::NEG_INFINITY, f64::NAN, -0.75, -0.25, -0.0625, -5e-324, -0.0, 0.0, 5e-324, 1e300];

fn reached(list: &mut MapList, cell: u8) -> Cell {
    let MapAnswer::Reached(_, Ok(cell)) = list.call(MapCall::CellPoints { cell }) else { panic!("a refusal") };
    cell
}

/// The index of the knots kept: it stays after insertions torn and refused, after direct calls and where building the knots is refused, and is
/// another after an insertion that is done and where the knots are built anew. Wherever it stays, one built anew would be another, or refused.
fn cells_kept(random: &mut Random) -> MapList {
    const ASKED: u8 = 15;
    let mut list = square();
    for cell in CORNERS {
        assert_eq!(reached(&mut list, cell), Cell { words: [15, 0], count: 4 });
    }
    assert_eq!(list.insert(random, 0, RIGHT, 0.5).number(), 0);
    let before = reached(&mut list, ASKED);
    assert_eq!(before, Cell { words: [31, 0], count: 5 });
    for (con, ratio, number) in [(0, 0.0, TORN), (0, 2.0, RATIO), (5, 0.5, FOREIGN)] {
        assert_eq!(list.insert(random, con, RIGHT, ratio).number(), number);
        assert_eq!(reached(&mut list, ASKED), before);
    }
    // The torn point stands between corner 0 and point 4, so that corner 0 reaches no further than point 4.
    assert_eq!(list.call(MapCall::Generate).number(), 0);
    assert_eq!(reached(&mut list, ASKED), Cell { words: [30, 0], count: 4 });
    assert_eq!(list.insert(random, 2, DOWN, 0.5).number(), 0);
    let done = reached(&mut list, ASKED);
    assert_eq!(done, Cell { words: [30 | 1 << 6, 0], count: 5 });
    for call in [Call::SetEdgeConWeight(6, RIGHT, -0.75), Call::RemoveConnection(0, UP), Call::Make(1.0)] {
        assert_eq!(list.call(MapCall::Direct(call)).number(), 0);
        assert_eq!(reached(&mut list, ASKED), done);
    }
    assert_eq!(list.call(MapCall::Direct(Call::Connect(0, 3, UP, 0.5))).number(), 0);
    assert_eq!(reached(&mut list, ASKED), done);
    assert_eq!(list.call(MapCall::Generate).number(), 0);
    assert_eq!(reached(&mut list, ASKED), Cell { words: [30, 0], count: 4 });
    // Building is refused at corner 2, after corner 0, which reaches less than it did.
    let built = reached(&mut list, 0);
    assert_eq!(built.words[0] & 1, 1);
    for call in [Call::SetEdgeConWeight(0, LEFT, -0.75), Call::RemoveEdgeCondition(2, UP)] {
        assert_eq!(list.call(MapCall::Direct(call)).number(), 0);
    }
    assert!(list.maps.reading.store.point_knot_vectors(0).is_ok_and(|knots| knots.s[0] == 0.75));
    assert_eq!(list.call(MapCall::Generate).number(), BORDER);
    assert_eq!(reached(&mut list, 0), built);
    list
}

/// Where no knots are kept and building them is refused, so is the cell.
fn cells_refused() -> MapList {
    let mut list = square();
    for call in [Call::RemoveConnection(0, RIGHT), Call::RemoveConnection(3, RIGHT)] {
        assert_eq!(list.call(MapCall::Direct(call)).number(), 0);
    }
    for _ in 0..2 {
        assert_eq!(list.call(MapCall::CellPoints { cell: 119 }).number(), BORDER);
    }
    list
}

/// Outer knots between lines of the grid, on one, and one float above and below one: every cell.
fn cells_between(random: &mut Random) -> MapList {
    const LINE: f64 = 0.4375;
    let mut list = MapList::new(SQUARE, 0.0);
    for (con, direction, ratio) in [
        (0, RIGHT, 0.3),
        (3, RIGHT, 0.3),
        (4, RIGHT, 0.5),
        (5, RIGHT, 0.5),
        (0, UP, 0.25),
        (1, UP, 0.25),
        (8, UP, 0.25f64.next_up()),
        (9, UP, 0.25f64.next_down().next_down()),
        (10, UP, 0.5),
        (11, UP, 0.5),
    ] {
        assert_eq!(list.insert(random, con, direction, ratio).number(), 0);
    }
    let outer = |point: u8| list.maps.reading.store.point_knot_vectors(point).map(|knots| (knots.t[0], knots.t[4]));
    assert_eq!([outer(0), outer(1)], [Ok((0.0, LINE.next_up())), Ok((0.0, LINE.next_down()))]);
    assert_eq!([outer(2), outer(3)], [Ok((LINE, 1.0)); 2]);
    assert_eq!([outer(12), outer(13)], [Ok((0.25f64.next_down().next_down(), 1.0)), Ok((0.25f64.next_up(), 1.0))]);
    every_cell(&mut list);
    list
}

/// Nine lines across the map each way, 121 points: every cell. Each listed point misses some, and the second word has the upper points.
fn cells_of_grid(random: &mut Random) -> MapList {
    const LINES_ACROSS: u8 = 9;
    let mut list = square();
    let split = |list: &mut MapList, random: &mut Random, con: u8, direction: usize, line: u8| {
        assert_eq!(list.insert(random, con, direction, 1.0 / (LINES_ACROSS + 1 - line) as f64).number(), 0);
        list.maps.made() as u8 - 1
    };
    let (mut below, mut top) = (vec![0], 3);
    for line in 0..LINES_ACROSS {
        below.push(split(&mut list, random, below[line as usize], RIGHT, line));
        top = split(&mut list, random, top, RIGHT, line);
    }
    below.push(1);
    for line in 0..LINES_ACROSS {
        below = below.into_iter().map(|con| split(&mut list, random, con, UP, line)).collect();
    }
    every_cell(&mut list);
    assert_eq!(counts(&mut list), [121, 121, 220, 44, 0]);
    list
}

/// All points have the same outer knots first. Then corner 0 ends at 1 across and corner 1 starts at 0, and upwards all points reach every row.
fn cells_of_border(random: &mut Random, border: f64) -> MapList {
    let mut list = MapList::new(SQUARE, border);
    let row = || (0..LINES).map(|column| LINES * MIDDLE + column);
    let column = (0..LINES).map(|row| LINES * row + MIDDLE);
    for cell in CORNERS.into_iter().chain(row()).chain(column) {
        list.call(MapCall::CellPoints { cell });
    }
    assert_eq!(list.insert(random, 0, RIGHT, 0.5).number(), 0);
    for (point, direction) in [(0, DOWN), (4, DOWN), (1, DOWN), (2, UP), (3, UP)] {
        assert_eq!(list.call(MapCall::Direct(Call::SetEdgeConWeight(point, direction, 1.0))).number(), 0);
    }
    for cell in row() {
        list.call(MapCall::CellPoints { cell });
    }
    list
}

fn every_cell(list: &mut MapList) {
    for cell in 0..=255 {
        list.call(MapCall::CellPoints { cell });
    }
}

/// Links are cut so that a ray is refused: the knots kept stay kept when building them is refused, and so does their index.
fn refused_knots() -> MapList {
    let evaluate = MapCall::Evaluate { s: 0.25, t: 0.75 };
    let direct = |list: &mut MapList, calls: [Call; 2]| {
        for call in calls {
            assert_eq!(list.call(MapCall::Direct(call)).number(), 0);
        }
    };
    let mut list = square();
    let first = list.call(evaluate);
    direct(&mut list, [Call::RemoveConnection(0, RIGHT), Call::RemoveConnection(3, RIGHT)]);
    assert_eq!(list.call(MapCall::Generate).number(), BORDER);
    assert_eq!(reached(&mut list, 119), Cell { words: [15, 0], count: 4 });
    assert_same_value(&first, &list.call(evaluate));
    assert_same_value(&first, &list.call(MapCall::Lend { s: 0.25, t: 0.75 }));
    direct(&mut list, [Call::Connect(0, 1, RIGHT, 0.5), Call::Connect(3, 2, RIGHT, 0.5)]);
    assert_same_value(&first, &list.call(evaluate));
    assert_eq!(list.call(MapCall::Generate).number(), 0);
    let second = list.call(evaluate);
    direct(&mut list, [Call::RemoveEdgeCondition(3, UP), Call::RemoveEdgeCondition(3, LEFT)]);
    assert_eq!(list.call(MapCall::Generate).number(), OPEN_SIDE);
    assert_eq!(reached(&mut list, 119), Cell { words: [15, 0], count: 4 });
    assert_same_value(&second, &list.call(evaluate));
    list
}

/// The same cut where no knots are kept: none are kept then either. A point made alone is given coordinates.
fn no_knots() -> MapList {
    let mut list = square();
    for call in [
        Call::RemoveConnection(0, RIGHT),
        Call::RemoveConnection(3, RIGHT),
        Call::Make(0.5),
        Call::SetKnotCoordinates(4, 0.25, 0.75),
    ] {
        assert_eq!(list.call(MapCall::Direct(call)).number(), 0);
    }
    let (s, t) = (0.25, 0.75);
    let cell = MapCall::CellPoints { cell: 119 };
    let values = [MapCall::Evaluate { s, t }, MapCall::Lend { s, t }, MapCall::SetPoint { s, t }, MapCall::LentSetPoint { s, t }];
    for call in [MapCall::Generate, cell].into_iter().chain(values) {
        assert_eq!(list.call(call).number(), BORDER);
    }
    list.call(MapCall::Openings);
    assert_eq!(counts(&mut list), [5, 4, 2, 12, 4]);
    list
}

/// A line of points until the store is full, each split off at a ratio by how many are still to be made, itself among them.
fn filled_line(random: &mut Random, ratio: fn(usize) -> f64) -> MapList {
    let mut list = square();
    let mut con = 0;
    while list.maps.made() < CAPACITY {
        assert_eq!(list.insert(random, con, RIGHT, ratio(CAPACITY - list.maps.made())).number(), 0);
        con = list.maps.made() as u8 - 1;
    }
    list
}

/// The 129th point is 10.
fn full_line(random: &mut Random) -> MapList {
    let mut list = filled_line(random, |_| 0.5);
    assert_eq!(list.insert(random, CAPACITY as u8 - 1, RIGHT, 0.5).number(), FULL);
    assert_eq!(counts(&mut list), [128, 128, 128, 132, 124]);
    assert_eq!(list.call(MapCall::Direct(Call::Make(1.0))).number(), FULL);
    for cell in 0..LINES {
        list.call(MapCall::CellPoints { cell });
    }
    list
}

/// The sides of a full store are opened, the last ones first: the openings are listed where one side is left, and where none is. Before, no
/// store has more borders.
fn all_open() -> MapList {
    let mut list = square();
    while list.maps.made() < CAPACITY {
        assert_eq!(list.call(MapCall::Direct(Call::Make(1.0))).number(), 0);
    }
    assert_eq!(counts(&mut list), [128, 4, 4, 504, 0]);
    for (point, direction) in (0..CAPACITY as u8).rev().flat_map(|n| [LEFT, DOWN, RIGHT, UP].map(|d| (n, d))) {
        // The other end of a link is opened with it.
        if list.maps.reading.store.side(point, direction).is_opening() {
            continue;
        }
        if list.maps.reading.store.openings().len() + 1 == CAPACITY * 4 {
            list.call(MapCall::Openings);
        }
        assert_eq!(list.call(MapCall::Direct(Call::RemoveConnection(point, direction))).number(), 0);
    }
    let MapAnswer::Opened(openings) = list.call(MapCall::Openings) else { unreachable!() };
    assert_eq!(openings.len(), CAPACITY * 4);
    assert_eq!(counts(&mut list), [128, 4, 0, 0, 512]);
    list
}

/// All of these sides joined in two rings through every point: no store has more links.
fn all_linked() -> MapList {
    let mut list = all_open();
    for direction in [UP, RIGHT] {
        for point in 0..CAPACITY as u8 {
            let next = (point + 1) % CAPACITY as u8;
            assert_eq!(list.call(MapCall::Direct(Call::Connect(point, next, direction, 1.0))).number(), 0);
        }
    }
    assert_eq!(counts(&mut list), [128, 4, 256, 0, 0]);
    list
}

/// The edits of a sample whose answers docs/FORMATS.md adds up, and the counts and openings that they leave.
fn of_sample(path: &str) -> MapList {
    let file = sample(path);
    let mut list = MapList::new(file.corners, file.border);
    for edit in &file.edits {
        list.call(edit.call(file.withdraws()));
    }
    assert_eq!(counts(&mut list), if file.withdraws() { [17, 17, 25, 16, 2] } else { [18, 17, 26, 16, 4] });
    list.call(MapCall::Openings);
    list
}

/// The counts after each insertion: done and torn ones that open one side and two, and infer no link, one and two, and a refused one.
fn counts_between(random: &mut Random) -> MapList {
    let edits = [
        ((0, RIGHT, 0.0), (TORN, 1, 0)),
        ((0, UP, 0.5), (0, 1, 0)),
        ((1, UP, 0.5), (0, 1, 1)),
        ((5, RIGHT, 0.0), (TORN, 2, 1)),
        ((1, LEFT, 0.5), (0, 1, 0)),
        ((2, LEFT, 0.5), (0, 1, 0)),
        ((6, LEFT, 0.5), (0, 2, 2)),
        ((10, UP, 0.5), (0, 2, 0)),
        ((6, UP, 0.5), (0, 1, 1)),
        ((6, UP, 0.5), (0, 1, 0)),
        ((10, UP, 0.5), (0, 2, 1)),
        ((5, RIGHT, 0.0), (TORN, 2, 0)),
        ((15, RIGHT, 0.5), (FOREIGN, 0, 0)),
    ];
    let mut list = square();
    for ((con, direction, ratio), told) in edits {
        let answer = match list.insert(random, con, direction, ratio) {
            MapAnswer::Inserted(Insertion::Done(counts)) => (0, counts.opened, counts.inferred),
            MapAnswer::Inserted(Insertion::Torn(counts, _)) => (TORN, counts.opened, counts.inferred),
            refused => (refused.number(), 0, 0),
        };
        assert_eq!(answer, told);
        counts(&mut list);
    }
    list
}

fn assert_same_value(before: &MapAnswer, after: &MapAnswer) {
    let (MapAnswer::Evaluated(Ok(before)), MapAnswer::Evaluated(Ok(after))) = (before, after) else { panic!("a refusal") };
    assert_eq!(bits(before), bits(after));
}

/// A map after edits, by a rule on torn ones, evaluated, with rays of some lengths from every point and side.
fn edited(random: &mut Random, withdraws: bool, edits: &[(u8, usize, f64)], lengths: &[usize]) -> MapList {
    let mut list = square();
    for &(con, direction, ratio) in edits {
        list.insert_by_rule(random, withdraws, con, direction, ratio);
    }
    list.call(MapCall::Evaluate { s: 0.5, t: 0.5 });
    list.call(MapCall::Lend { s: 0.5, t: 0.5 });
    list.call(MapCall::CellPoints { cell: 136 });
    list.call(MapCall::Openings);
    list.call(MapCall::Counts);
    rays(&mut list, lengths);
    list
}

/// Rays of some lengths from every point and side, and the knots of every point.
fn rays(list: &mut MapList, lengths: &[usize]) {
    for point in 0..list.maps.made() as u8 {
        for direction in 0..4 {
            for &count in lengths {
                list.call(MapCall::Ray { point, direction, count });
            }
        }
        list.call(MapCall::Knots { point });
    }
}

fn some_rays(list: &mut MapList, random: &mut Random) {
    for _ in 0..16 {
        let point = if random.one_in(40) { random.below(256) } else { random.below(list.maps.made()) } as u8;
        list.call(MapCall::Ray { point, direction: random.below(4), count: random.of(&[0, 1, 2, 2, 3, 4, 5, 5]) });
    }
    for _ in 0..3 {
        let point = random.below(list.maps.made() + 1) as u8;
        list.call(MapCall::Knots { point });
    }
    list.call(MapCall::Openings);
    list.call(MapCall::Counts);
    let question = question(random, &list.maps.reading);
    list.call(question);
    some_cells(list, random, 4);
    list.call(evaluation(random));
}

pub fn some_cells(list: &mut MapList, random: &mut Random, count: usize) {
    for _ in 0..count {
        let cell = cell(random, &list.maps.reading);
        list.call(MapCall::CellPoints { cell });
    }
}

/// A list's bytes, its length first.
pub fn encoded(list: &MapList) -> Vec<u8> {
    list.maps.assert_same();
    let mut body = Bytes::default();
    body.float(list.maps.border);
    list.maps.corners.iter().flatten().for_each(|x| body.float(*x));
    body.pair(list.calls.len() as u16);
    for (call, answer) in &list.calls {
        put_map_call(&mut body, *call);
        put_map_answer(&mut body, answer);
    }
    put_map(&mut body, &list.maps.reading);
    body.with_length()
}

pub fn write(seed: u64) {
    let mut random = Random::new(seed);
    let mut lists = worked_examples(&mut random);
    lists.extend(RING_PREFIXES.iter().map(|edits| edited(&mut random, false, edits, &EVERY_LENGTH)));
    lists.extend(AT_THE_CAPS.iter().chain([&AROUND_TWICE]).map(|edits| edited(&mut random, false, edits, &[2, 5])));
    for place in 0..ALL_RAYS + SOME_RAYS + DIRECT_CALLS {
        let direct_calls = place >= ALL_RAYS + SOME_RAYS;
        let edits = 1 + if place < ALL_RAYS { place % 9 } else { random.below(28) };
        let pulls = Pulls::drawn(&mut random);
        let mut list = map(&mut random, Plan { edits, questions: true, direct_calls, withdrawing: Withdrawing::of(place), pulls });
        if place < ALL_RAYS {
            rays(&mut list, &EVERY_LENGTH);
        } else {
            some_rays(&mut list, &mut random);
        }
        lists.push(list);
    }
    for place in 0..FULL_STORES {
        let pulls = Pulls::drawn(&mut random);
        let mut list = full_map(&mut random, Withdrawing::of(place), pulls);
        some_rays(&mut list, &mut random);
        lists.push(list);
    }
    lists.extend(set_points(&mut random));
    let mut out = Bytes::default();
    lists.iter().for_each(|list| out.0.extend(encoded(list)));
    print_table(&lists);
    out.write("crates/map_replay/data/cases");
}

fn print_table(lists: &[MapList]) {
    let mut tally = crate::compare::Tally::default();
    lists.iter().for_each(|list| tally.count_list(list));
    let alone = lists.iter().filter(|list| !list.maps.followed).count();
    println!(
        "{} lists, {} calls; {alone} lists hold an insertion torn by a ring that stays, after which the reading alone answers",
        lists.len(),
        lists.iter().map(|list| list.calls.len()).sum::<usize>()
    );
    tally.print();
}
