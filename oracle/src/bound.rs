//! The bound from 0 to 1, tried with hostile numbers on the published Rust, on the reading and on the proved program: borders 0, -0.0, subnormal, largest and
//! infinite, subnormal ratios, positions at the ends of 0 to 1 and one float beside, anything on the other axes and for points that are refused, torn or
//! withdrawn, and parameters on knots and one float beside. On half of the maps pulls are set, as hostile, anywhere in the list, and such as are refused. It
//! guards the statement of the bound against a wrong reading; what is proved it cannot find.
use crate::draw::{MapList, PULLS, REFUSED_PULLS, Ratios, place, pulled_point, ratio};
use crate::map_calls::{MapAnswer, MapCall};
use crate::random::Random;
use crate::reading::Insertion;

/// How many evaluations end a list.
pub const EVALUATIONS: usize = 200;
const BORDERS: [f64; 8] = [0.0, -0.0, 5e-324, 1e-7, 1.0, 3.0, f64::MAX, f64::INFINITY];
const SMALLEST_RATIOS: [f64; 4] = [5e-324, 1e-310, 2.2250738585072014e-308, 1.1102230246251565e-16];
const ANYTHING: [f64; 9] = [f64::NAN, f64::INFINITY, f64::NEG_INFINITY, f64::MAX, f64::MIN, -3.5, 7.0, -5e-324, 1.0000000000000002];

/// Of which the pulls of a map come: tiny, huge, of one size, or any that are accepted. Weights of huge ones may add up to infinity, of tiny ones to 0.
const SIZES: [&[f64]; 4] = [&[5e-324, 1e-323, 1e-310, 0.0], &[f64::MAX, 1e308, 1e300, 1.0], &[0.5, 3.0, 1.0 / 3.0, 1.0000000000000002, 0.9999999999999999], &PULLS];

/// What the evaluations of the lists came to.
#[derive(Default)]
pub struct Tried {
    /// Evaluations, set-points among them.
    evaluations: u64,
    /// Floats of these with a positive and finite weight, on axes that lie in 0 to 1; those with a pull other than 1.0, those at exactly 0 or 1, and
    /// those outside.
    bounded: u64,
    pulled: u64,
    at_the_ends: u64,
    pub outside: u64,
}

impl Tried {
    fn count(&mut self, axes: [bool; 3], pulled: bool, answer: &MapAnswer) {
        self.evaluations += 1;
        let MapAnswer::Evaluated(Ok(value)) = answer else { return };
        if !(value.weight > 0.0 && value.weight < f64::INFINITY) {
            return;
        }
        for (axis, x) in value.position.iter().enumerate().filter(|(axis, _)| axes[*axis]) {
            self.bounded += 1;
            self.pulled += pulled as u64;
            self.at_the_ends += (*x == 0.0 || *x == 1.0) as u64;
            if !(0.0 <= *x && *x <= 1.0) {
                self.outside += 1;
                println!("OUTSIDE on axis {axis}: {x:?} of {value:?}");
            }
        }
    }

    pub fn print(&self) {
        println!(
            "{} evaluations and set-points; {} floats with a positive and finite weight on axes in 0 to 1, {} of them with a pull other than 1.0, {} at an end, {} outside",
            self.evaluations, self.bounded, self.pulled, self.at_the_ends, self.outside
        );
    }
}

fn in_unit(random: &mut Random) -> f64 {
    match random.below(3) {
        0 => random.of(&[0.0, 1.0, -0.0, 5e-324, 0.9999999999999999, 2.2250738585072014e-308]),
        1 => random.of(&[0.0, 1.0]),
        _ => random.unit(),
    }
}

fn position(random: &mut Random, axes: [bool; 3]) -> [f64; 3] {
    axes.map(|bounded| if bounded { in_unit(random) } else { random.of(&ANYTHING) })
}

/// A knot of some listed point, or a float beside one, or any.
fn parameter(random: &mut Random, knots: &[f64]) -> f64 {
    if knots.is_empty() || random.one_in(4) {
        return random.unit();
    }
    let knot = random.of(knots);
    match random.below(3) {
        0 => knot,
        1 => knot.next_up(),
        _ => knot.next_down(),
    }
}

/// Where pulls are set on a map, one in two times that it is asked: one that is accepted, or else one that is refused.
fn set_pulls(list: &mut MapList, random: &mut Random, size: Option<&[f64]>) {
    if let (Some(size), true) = (size, random.one_in(2)) {
        let pull = if random.one_in(6) { random.of(&REFUSED_PULLS) } else { random.of(size) };
        let point = pulled_point(random, &list.maps.reading);
        list.set_pull(point, pull);
    }
}

/// A map whose corners and done points lie in 0 to 1 on some axes, and evaluations of it, one in three of them a set-point.
pub fn list(random: &mut Random, tried: &mut Tried) -> MapList {
    let axes = random.of(&[[true; 3], [true, false, false], [false, true, false], [false, false, true]]);
    let corners = std::array::from_fn(|_| position(random, axes));
    let border = random.of(&BORDERS);
    let mut list = MapList::new(corners, border);
    let ratios = random.of(&[Ratios::Quarters, Ratios::Ends, Ratios::NearMisses, Ratios::Any]);
    let size = random.one_in(2).then(|| random.of(&SIZES));
    for _ in 0..random.below(30) {
        set_pulls(&mut list, random, size);
        let (con, direction) = place(random, &list.maps);
        let ratio = if random.one_in(6) { random.of(&SMALLEST_RATIOS) } else { ratio(random, ratios) };
        let done = matches!(list.maps.reading.clone().add_control_point([0.0; 3], con, direction, ratio), Insertion::Done(_));
        let position = position(random, if done { axes } else { [false; 3] });
        let withdraws = random.one_in(2);
        list.call(MapCall::Insert { withdraws, con, direction, ratio, position });
        if random.one_in(4) {
            evaluate(&mut list, random, &[], axes, tried);
        }
    }
    let listed = list.maps.reading.listed.clone();
    let rows = listed.iter().filter_map(|point| list.maps.reading.store.point_knot_vectors(*point).ok());
    let knots: Vec<f64> = rows.flat_map(|row| row.s.into_iter().chain(row.t)).collect();
    for _ in 0..EVALUATIONS {
        set_pulls(&mut list, random, size);
        evaluate(&mut list, random, &knots, axes, tried);
    }
    list
}

fn evaluate(list: &mut MapList, random: &mut Random, knots: &[f64], axes: [bool; 3], tried: &mut Tried) {
    let (s, t) = (parameter(random, knots), parameter(random, knots));
    let answer = list.call(if random.one_in(3) { MapCall::SetPoint { s, t } } else { MapCall::Evaluate { s, t } });
    tried.count(axes, list.maps.is_pulled(), &answer);
}
