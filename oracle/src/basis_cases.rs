//! Cases of the basis function: u, five knots and the published answer, 56 bytes each.
use crate::bytes::{Bytes, bits_of};
use crate::random::Random;
use crate::reading;
use published::t_spline::basis_function;

/// How many cases are drawn.
const DRAWN: usize = 4000;

/// Knots and a parameter where every term of a segment's sum is -0.0, and the sum, which starts at 0.0, is 0.0. The last knots are those of
/// point 0 of a fresh map with border 0.0.
const NEGATIVE_ZEROS: [([f64; 5], f64); 3] = [
    ([0.0, 0.0, 1.0, -1.0, 1.0], 0.0),
    ([0.0, 0.0, 1.0, -1.0, 1.0], -0.0),
    ([0.0, 0.0, 0.0, 1.0, 1.0], -0.0),
];

/// Five knots of one kind. The kinds take turns, so that each has as many cases as the others.
fn knots(random: &mut Random, kind: usize) -> [f64; 5] {
    let mut a = [0.0; 5];
    match kind {
        0 => a.fill_with(|| random.below(7) as f64),
        1 => a.fill_with(|| random.unit()),
        2 => return around_a_point(random),
        3 => a.fill_with(|| random.below(4) as f64 / 4.0 - 0.5),
        4 => a.fill_with(|| random.of(&[f64::NEG_INFINITY, -1.0, 0.0, 0.5, 1.0, f64::INFINITY])),
        5 => a.fill_with(|| random.of(&[f64::NAN, 0.0, 0.25, 0.5, 1.0, 2.0])),
        6 => a.fill_with(|| f64::from_bits(random.of(&[0, 1, 2, 3, 7, 1 << 30, 1 << 51, (1 << 52) - 1, 1 << 52]))),
        7 => return adjacent(random),
        8 => a.fill_with(|| random.of(&[-8.0, -3.0, -2.5, -1.0, -1e-7, -0.0, 0.0])),
        9 => a.fill_with(|| random.of(&[-1e308, -1e155, -1.0, 1e-300, 1.0, 1e103, 1e155, 1e308, f64::MAX])),
        10 => a.fill_with(|| random.unit() * 4.0 - 2.0),
        _ => a.fill_with(|| f64::from_bits(random.bits())),
    }
    if kind == 10 || (kind == 4 || kind == 9) && random.one_in(3) {
        return a;
    }
    a.sort_by(|x, y| x.partial_cmp(y).unwrap_or(std::cmp::Ordering::Equal));
    if kind == 3 && random.one_in(2) {
        a.reverse();
    }
    a
}

/// Knots as a map has them: two intervals each way from a coordinate.
fn around_a_point(random: &mut Random) -> [f64; 5] {
    let mut interval = || random.of(&[0.0, 0.0, 1e-6, 0.125, 0.25, 0.3, 0.5, 1.0]);
    let centre = interval();
    let mut a = [centre; 5];
    a[3] = a[2] + interval();
    a[4] = a[3] + interval();
    a[1] = a[2] - interval();
    a[0] = a[1] - interval();
    a
}

/// Knots none or a few floats apart.
fn adjacent(random: &mut Random) -> [f64; 5] {
    let mut knot: f64 = random.of(&[0.1, 0.5, 1.0, 1024.0, -1.0, 0.0]);
    let mut a = [knot; 5];
    for place in a.iter_mut() {
        *place = knot;
        for _ in 0..random.below(4) {
            knot = knot.next_up();
        }
    }
    a
}

/// A parameter at a knot, one float beside it, between two knots, or far from all.
fn parameter(random: &mut Random, a: &[f64; 5]) -> f64 {
    let knot = a[random.below(5)];
    let place = random.below(4);
    match random.below(16) {
        0..=1 => knot,
        2 => knot.next_up(),
        3 => knot.next_down(),
        4..=9 => a[place] + (a[place + 1] - a[place]) * random.unit(),
        10..=11 => a[place] / 2.0 + a[place + 1] / 2.0,
        12 => a[4] + random.unit(),
        13 => a[0] - random.unit(),
        14 => random.of(&[f64::NAN, f64::INFINITY, f64::NEG_INFINITY, 0.0, -0.0]),
        _ => f64::from_bits(random.bits()),
    }
}

/// Five knots, a parameter and the answer.
pub type Case = ([f64; 5], f64, f64);

fn answered(a: [f64; 5], u: f64) -> Case {
    let answer = basis_function(u, &a);
    assert_eq!(bits_of(answer), bits_of(reading::basis_function(u, &a)), "basis at {u} of {a:?}");
    (a, u, answer)
}

fn draw(random: &mut Random, kind: usize) -> Case {
    let a = knots(random, kind);
    let u = parameter(random, &a);
    answered(a, u)
}

/// A case of a kind. Where the answer is 0.0 every second draw is made again, so that fewer cases lie outside the knots.
pub fn drawn(random: &mut Random, place: usize) -> Case {
    let mut case = draw(random, place % 12);
    while case.2 == 0.0 && random.one_in(2) {
        case = draw(random, place % 12);
    }
    case
}

pub fn encoded((a, u, answer): Case) -> Vec<u8> {
    let mut out = Bytes::default();
    out.float(u);
    a.iter().for_each(|knot| out.float(*knot));
    out.float(answer);
    out.0
}

/// Writes the stored cases: those drawn, then those of negative zeros.
pub fn write(seed: u64) {
    let mut random = Random::new(seed);
    let mut out = Bytes::default();
    let mut kinds = [0; 5];
    let cases = (0..DRAWN).map(|place| drawn(&mut random, place));
    for case in cases.chain(NEGATIVE_ZEROS.map(|(a, u)| answered(a, u))) {
        kinds[kind_of(case.2)] += 1;
        out.0.extend(encoded(case));
    }
    println!(
        "answers: zero {}, positive {}, negative {}, infinite {}, NaN {}",
        kinds[0], kinds[1], kinds[2], kinds[3], kinds[4]
    );
    out.write("crates/basis_replay/data/cases");
}

fn kind_of(answer: f64) -> usize {
    match answer {
        x if x.is_nan() => 4,
        x if x.is_infinite() => 3,
        x if x == 0.0 => 0,
        x if x > 0.0 => 1,
        _ => 2,
    }
}
