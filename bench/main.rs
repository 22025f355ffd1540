//! Times the proved library against the published Rust, on the same maps, in one run: README.md says how.
#[path = "../oracle/src/index.rs"]
#[allow(dead_code)]
mod index;
#[path = "../oracle/src/random.rs"]
#[allow(dead_code)]
mod random;
#[path = "../oracle/src/reading.rs"]
#[allow(dead_code)]
mod reading;

/// The published Rust, its locks the standard library's and plain cells: the same driver over both.
macro_rules! published_side {
    ($name:ident, $library:ident) => {
        #[allow(dead_code)]
        mod $name {
            use $library as published;
            include!(concat!(env!("TMESH_DECLARED"), "/original.rs"));
            include!("rust_side.rs");
        }
    };
}

published_side!(locks, published_locks);
published_side!(cells, published_cells);

use random::Random;
use std::hint::black_box;
use std::time::Instant;

type Host = unsafe extern "C" fn(*const u8, usize, u64) -> u64;
type Rust = fn(&[Edit], u64) -> u64;

unsafe extern "C" {
    fn bench_insertions(edits: *const u8, length: usize, repeats: u64) -> u64;
    fn bench_map_insertions(edits: *const u8, length: usize, repeats: u64) -> u64;
    fn bench_knots(edits: *const u8, length: usize, repeats: u64) -> u64;
    fn bench_indices(edits: *const u8, length: usize, repeats: u64) -> u64;
    fn bench_cell_points(edits: *const u8, length: usize, repeats: u64) -> u64;
    fn bench_counts(edits: *const u8, length: usize, repeats: u64) -> u64;
    fn bench_openings(edits: *const u8, length: usize, repeats: u64) -> u64;
    fn bench_settings(edits: *const u8, length: usize, repeats: u64) -> u64;
    fn bench_reports(file: *const u8, length: usize, repeats: u64) -> u64;
    fn bench_set_points(file: *const u8, length: usize, repeats: u64) -> u64;
    fn bench_lent_set_points(file: *const u8, length: usize, repeats: u64) -> u64;
    fn bench_evaluations(edits: *const u8, length: usize, repeats: u64) -> u64;
    fn bench_lent_evaluations(edits: *const u8, length: usize, repeats: u64) -> u64;
    fn bench_rays(edits: *const u8, length: usize, repeats: u64) -> u64;
    fn bench_walks(edits: *const u8, length: usize, repeats: u64) -> u64;
    fn bench_lent_walks(edits: *const u8, length: usize, repeats: u64) -> u64;
    fn bench_bases(edits: *const u8, length: usize, repeats: u64) -> u64;
    fn gatemap_set_point(file: *const u8, length: usize, s: u64, t: u64, out: *mut u8, room: usize) -> u64;
    fn gatemap_cell(file: *const u8, length: usize, cell: u8, out: *mut u8, room: usize) -> u64;
    fn gatemap_season(season: *const u8, length: usize, minute: u32, out: *mut u8, room: usize) -> u64;
    fn gatemap_load(seed: u64, edits: u64, out: *mut u8, room: usize) -> u64;
}

pub struct Edit {
    point: u8,
    direction: u8,
    ratio: f64,
    position: [f64; 3],
}

const CORNERS: [[f64; 3]; 4] = [[0.0, 0.0, 0.0], [1.0, 0.0, 0.0], [1.0, 1.0, 1.0], [0.0, 1.0, 1.0]];
const BORDER: f64 = 1.0;
const MOST_POINTS: usize = 128;
const FILE_EDITS: usize = 1000;
const MOST_FILE_BYTES: usize = 34109;
const DAY_MINUTES: u32 = 1440;

/// The edits as the host reads them.
fn bytes(edits: &[Edit]) -> Vec<u8> {
    let mut out = Vec::new();
    for edit in edits {
        out.extend([edit.point, edit.direction]);
        for float in [edit.ratio].iter().chain(&edit.position) {
            out.extend(float.to_bits().to_be_bytes());
        }
    }
    out
}

/// The same with a pull behind them, which every point then has.
fn with_pull(edits: &[u8], pull: f64) -> Vec<u8> {
    [edits, &pull.to_bits().to_be_bytes()].concat()
}

/// A file: the count of what follows, and that.
fn counted(body: &[u8]) -> Vec<u8> {
    [&(body.len() as u32).to_be_bytes()[..], body].concat()
}

/// The map file of a version with these edits.
fn map_file(version: u8, edits: &[Edit]) -> Vec<u8> {
    let mut body = vec![version];
    for float in [BORDER].iter().chain(CORNERS.iter().flatten()) {
        body.extend(float.to_bits().to_be_bytes());
    }
    body.extend(bytes(edits));
    counted(&body)
}

/// The season file of so many windows, each from 06:00 to 22:00 on a day of its own: no two hold in a common minute, which only their days show.
fn season_file(windows: usize) -> Vec<u8> {
    let mut body = vec![1];
    for window in 0..windows {
        let opening = window as u32 * DAY_MINUTES;
        for minute in [opening, opening + DAY_MINUTES] {
            body.extend(minute.to_be_bytes());
        }
        body.push(window as u8);
        for of_day in [360u16, 1320] {
            body.extend(of_day.to_be_bytes());
        }
    }
    counted(&body)
}

fn any_edit(random: &mut Random, made: usize) -> Edit {
    Edit {
        point: random.below(made) as u8,
        direction: random.below(4) as u8,
        ratio: random.of(&[0.25, 0.5, 0.75]),
        position: [random.unit(), random.unit(), random.unit()],
    }
}

/// What becomes of an edit.
#[derive(Clone, Copy, PartialEq)]
enum Outcome {
    Done,
    Torn,
    Refused,
}

/// What becomes of an edit by its answer. Of one that is torn by a ring nothing is said: the published Rust may not end there.
fn outcome(answer: reading::Insertion) -> Option<Outcome> {
    match answer {
        reading::Insertion::Done(_) => Some(Outcome::Done),
        reading::Insertion::Torn(_, reading::RING) => None,
        reading::Insertion::Torn(..) => Some(Outcome::Torn),
        reading::Insertion::Refused(_) => Some(Outcome::Refused),
    }
}

/// An edit with this outcome, and the map after it, from which a torn one is withdrawn.
fn edit_that_is(random: &mut Random, map: &mut reading::Map, wanted: Outcome) -> Edit {
    loop {
        let mut edit = any_edit(random, map.store.made());
        if wanted == Outcome::Torn {
            edit.ratio = random.of(&[0.0, 1.0]);
        }
        let mut tried = map.clone();
        let answer = tried.add_by_rule(true, edit.position, edit.point, edit.direction as usize, edit.ratio);
        if outcome(answer) == Some(wanted) {
            *map = tried;
            return edit;
        }
    }
}

/// Edits that are all done, drawn from a seed, until so many points are made.
fn drawn(points: usize) -> Vec<Edit> {
    let mut random = Random::new(20030727);
    let mut map = reading::Map::new(CORNERS, BORDER);
    (4..points).map(|_| edit_that_is(&mut random, &mut map, Outcome::Done)).collect()
}

/// The edits of a file: so many done ones, evenly among ones of which something else becomes.
fn done_among(done: usize, others: Outcome) -> Vec<Edit> {
    let mut random = Random::new(20030727);
    let mut map = reading::Map::new(CORNERS, BORDER);
    let done_by = |place: usize| place * done / FILE_EDITS;
    let wanted = |place: usize| if done_by(place) < done_by(place + 1) { Outcome::Done } else { others };
    (0..FILE_EDITS).map(|place| edit_that_is(&mut random, &mut map, wanted(place))).collect()
}

/// The edits of a file that fills the store, most of them refused.
fn filling() -> Vec<Edit> {
    done_among(MOST_POINTS - 4, Outcome::Refused)
}

/// The edits of a file drawn without a look at the map: a point below 128, a direction, a ratio in 1,024ths.
fn any_edits() -> Vec<Edit> {
    let mut random = Random::new(20030727);
    let mut edit = || Edit { ratio: random.below(1025) as f64 / 1024.0, ..any_edit(&mut random, MOST_POINTS) };
    (0..FILE_EDITS).map(|_| edit()).collect()
}

/// The set-point of a file at (s, 0.5), so many times.
unsafe fn set_points(file: *const u8, length: usize, s: f64, repeats: u64) -> u64 {
    let (s, t) = (s.to_bits(), 0.5f64.to_bits());
    let mut out = [0; 32];
    (0..repeats).map(|_| unsafe { gatemap_set_point(file, length, s, t, out.as_mut_ptr(), out.len()) } + out[7] as u64).sum()
}

/// The same in the middle of the map.
unsafe extern "C" fn files(file: *const u8, length: usize, repeats: u64) -> u64 {
    unsafe { set_points(file, length, 0.5, repeats) }
}

/// The same off the map.
unsafe extern "C" fn files_off_map(file: *const u8, length: usize, repeats: u64) -> u64 {
    unsafe { set_points(file, length, 5.0, repeats) }
}

/// The points of a cell of a file, of one cell after the other.
unsafe extern "C" fn file_cells(file: *const u8, length: usize, repeats: u64) -> u64 {
    let mut out = [0; 17];
    (0..repeats).map(|turn| unsafe { gatemap_cell(file, length, turn as u8, out.as_mut_ptr(), out.len()) } + out[16] as u64).sum()
}

/// The map of a season, so many times, at a minute that comes after all its windows: each is looked at, and none holds.
unsafe extern "C" fn seasons(season: *const u8, length: usize, repeats: u64) -> u64 {
    let mut out = [0; 1];
    (0..repeats).map(|_| unsafe { gatemap_season(season, length, black_box(u32::MAX), out.as_mut_ptr(), out.len()) } + out[0] as u64).sum()
}

/// Edits along the bottom edge, so that a walk Right from corner 0 makes so many moves.
fn row(moves: usize) -> Vec<Edit> {
    (1..moves).map(|n| Edit { point: if n == 1 { 0 } else { n as u8 + 2 }, direction: 1, ratio: 0.5, position: [0.5; 3] }).collect()
}

/// The time of one turn, in nanoseconds: the slope between few turns and many, so that what is done once drops out.
fn slope(run: impl Fn(u64) -> u64, turns: u64) -> f64 {
    let timed = |repeats| {
        let start = Instant::now();
        black_box(run(black_box(repeats)));
        start.elapsed().as_nanos() as f64
    };
    timed(turns / 4);
    (timed(turns * 2) - timed(turns)) / turns as f64
}

fn median(mut times: Vec<f64>) -> f64 {
    times.sort_by(f64::total_cmp);
    times[times.len() / 2]
}

/// The times of pieces of work that take turns, several times over.
fn in_turns<const N: usize>(turns: u64, work: [&dyn Fn(u64) -> u64; N]) -> [f64; N] {
    let mut times = [const { Vec::new() }; N];
    for _ in 0..7 {
        times.iter_mut().zip(work).for_each(|(times, run)| times.push(slope(run, turns)));
    }
    times.map(median)
}

/// A piece of work of this side, so many times.
fn ours(host: Host, file: &[u8]) -> impl Fn(u64) -> u64 {
    move |repeats| unsafe { host(file.as_ptr(), file.len(), repeats) }
}

/// Whether a row is timed: where a word is given, its name must hold that. A ratio to a row that is not timed is a NaN.
fn is_wanted(name: &str) -> bool {
    std::env::args().nth(1).is_none_or(|word| name.contains(&word))
}

/// A line of all sides' times, with what else there is to say.
fn show(name: &str, [ours, theirs, plain]: [f64; 3], beside: &str) {
    let row = format!("{name:56} {ours:10.1} {theirs:10.1} {plain:10.1} {:8.2} {:8.2} {beside}", ours / theirs, ours / plain);
    println!("{}", row.trim_end());
}

/// One line of the table: all sides in turn. It gives the time of this side, a NaN where the row is not wanted.
fn line(name: &str, per_turn: f64, turns: u64, edits: &[Edit], file: &[u8], host: Host, locks: Rust, cells: Rust) -> f64 {
    if !is_wanted(name) {
        return f64::NAN;
    }
    let work: [&dyn Fn(u64) -> u64; 3] = [&ours(host, file), &|repeats| locks(edits, repeats), &|repeats| cells(edits, repeats)];
    let times = in_turns(turns, work).map(|time| time / per_turn);
    show(name, times, "");
    times[0]
}

/// A line of a file of version 2, beside the Rust that makes each edit on a copy, and beside the same file of version 1, which takes its turns too.
fn line_withdrawing(name: &str, turns: u64, edits: &[Edit]) {
    if !is_wanted(name) {
        return;
    }
    let [first, second] = [1, 2].map(|version| map_file(version, edits));
    let locks = |repeats| locks::copied_files(edits, repeats);
    let cells = |repeats| cells::copied_files(edits, repeats);
    let [time, theirs, plain, of_version_one] = in_turns(turns, [&ours(files, &second), &locks, &cells, &ours(files, &first)]);
    let beside = format!("{:.2} of version 1, which takes {of_version_one:.1}", time / of_version_one);
    show(name, [time, theirs, plain], &beside);
}

/// A line of a time of this side alone, with what else there is to say.
fn show_alone(name: &str, ours: f64, beside: &str) {
    println!("{name:56} {ours:10.1} {:>10} {:>10} {:>8} {:>8} {beside}", "-", "-", "-", "-");
}

/// A line of work that the Rust has not, with what its time says beside another of this side.
fn line_alone(name: &str, turns: u64, file: &[u8], host: Host, beside: impl Fn(f64) -> String) {
    if !is_wanted(name) {
        return;
    }
    let [ours] = in_turns(turns, [&ours(host, file)]);
    show_alone(name, ours, &beside(ours));
}

/// A line of evaluations where every point has another pull than 1.0, beside the same without, which take their turns too.
fn line_pulled(name: &str, file: &[u8], host: Host) {
    if !is_wanted(name) {
        return;
    }
    let pulled = with_pull(file, 3.0);
    let [time, plain] = in_turns(20000, [&ours(host, &pulled), &ours(host, file)]);
    show_alone(name, time, &format!("{:.2} of the same without pulls, which takes {plain:.1}", time / plain));
}

/// A line of a season of so many windows, beside the set-point of the file of no edits, which takes its turns too.
fn line_season(name: &str, windows: usize) {
    if !is_wanted(name) {
        return;
    }
    let file = map_file(1, &[]);
    let season = season_file(windows);
    let [time, set_point] = in_turns(100000 / (windows as u64 + 1), [&ours(seasons, &season), &ours(files, &file)]);
    let beside = format!("{:.2} of the set-point of the file of no edits, which takes {set_point:.1}", time / set_point);
    let pairs = windows * windows.saturating_sub(1) / 2;
    let growth = if pairs > 0 { format!("; {:.2} for each of {pairs} pairs", time / pairs as f64) } else { String::new() };
    show_alone(name, time, &(beside + &growth));
}

/// A line of a load of so many edits, written into one buffer, beside the set-point of the file that it is, which takes its turns too.
fn line_load(name: &str, edits: u64) {
    if !is_wanted(name) {
        return;
    }
    let written = |file: &mut [u8]| unsafe { gatemap_load(black_box(20030727), edits, file.as_mut_ptr(), file.len()) };
    let mut file = vec![0; MOST_FILE_BYTES];
    let length = written(&mut file) as usize;
    let loads = |repeats| {
        let mut out = vec![0; MOST_FILE_BYTES];
        (0..repeats).map(|_| written(&mut out) + out[length - 1] as u64).sum()
    };
    let [time, set_point] = in_turns(200000 / (edits + 10), [&loads, &ours(files, &file[..length])]);
    let beside = format!("{:.2} of the set-point of that file, which takes {set_point:.1}", time / set_point);
    let growth = if edits > 0 { format!("; {:.2} for each edit", time / edits as f64) } else { String::new() };
    show_alone(name, time, &(beside + &growth));
}

fn main() {
    println!("{:56} {:>10} {:>10} {:>10} {:>8} {:>8}", "work", "here, ns", "Rust, ns", "cells, ns", "ratio", "to cells");
    for points in [4, 16, 64, MOST_POINTS] {
        let edits = drawn(points);
        let file = bytes(&edits);
        if points > 4 {
            let count = edits.len() as f64;
            let turns = 20000 / points as u64;
            line(&format!("insertion done, mesh by value, up to {points}"), count, turns, &edits, &file, bench_insertions, locks::insertions, cells::insertions);
            line(&format!("insertion done, map by value, up to {points}"), count, turns, &edits, &file, bench_map_insertions, locks::insertions, cells::insertions);
        }
        let turns = 20000 / points as u64;
        let knots = line(&format!("all knots built anew, {points} points"), 1.0, turns, &edits, &file, bench_knots, locks::knots, cells::knots);
        line_alone(&format!("index built anew, {points} points"), turns, &file, bench_indices, |index| {
            format!("{:.2} of all knots built anew, {:.2} of the rest of that", index / knots, index / (knots - index))
        });
        let name = format!("evaluation with knots kept, {points} points");
        let evaluation = line(&name, 1.0, 20000, &edits, &file, bench_evaluations, locks::evaluations, cells::evaluations);
        let of_evaluation = |time: f64| format!("{:.2} of the evaluation", time / evaluation);
        line_alone(&format!("points of a cell with index kept, {points} points"), 20000, &file, bench_cell_points, of_evaluation);
        line_alone(&format!("counts, {points} points"), 20000, &file, bench_counts, of_evaluation);
        line_alone(&format!("openings listed, {points} points"), 20000, &file, bench_openings, of_evaluation);
        line_alone(&format!("set_pull, map by value, {points} points"), 20000, &file, bench_settings, of_evaluation);
        let map = map_file(1, &edits);
        line_alone(&format!("set-point with knots kept, map by value, {points} points"), 20000, &map, bench_set_points, of_evaluation);
        let name = format!("evaluation with knots kept, over lent knots, {points} points");
        let lent = line(&name, 1.0, 20000, &edits, &file, bench_lent_evaluations, locks::evaluations, cells::evaluations);
        line_alone(&format!("set-point over lent knots, {points} points"), 20000, &map, bench_lent_set_points, |time| {
            format!("{:.2} of the evaluation over lent knots", time / lent)
        });
        line_pulled(&format!("evaluation with knots kept, pulls set, {points} points"), &file, bench_evaluations);
        line_pulled(&format!("evaluation over lent knots, pulls set, {points} points"), &file, bench_lent_evaluations);
        line(&format!("ray of 2, over lent sides, {points} points"), 1.0, 100000, &edits, &file, bench_rays, locks::rays, cells::rays);
    }
    for moves in [1, 100] {
        let edits = row(moves);
        let file = bytes(&edits);
        line(&format!("walk of {moves} moves, store by value"), 1.0, 20000, &edits, &file, bench_walks, locks::walks, cells::walks);
        line(&format!("walk of {moves} moves, over lent sides"), 1.0, 20000, &edits, &file, bench_lent_walks, locks::walks, cells::walks);
    }
    line("basis_function", 1.0, 1000000, &[], &[], bench_bases, locks::bases, cells::bases);
    for (name, edits) in [
        ("no edits", drawn(4)),
        ("12 edits done", drawn(16)),
        ("60 edits done", drawn(64)),
        ("124 edits done", drawn(MOST_POINTS)),
        ("124 edits done, 876 refused", filling()),
        ("1,000 edits drawn blindly", any_edits()),
    ] {
        let turns = 20000 / (edits.len() as u64 + 10);
        let file = map_file(1, &edits);
        let set_point = line(&format!("file of {name}"), 1.0, turns, &edits, &file, files, locks::files, cells::files);
        let of_set_point = |time: f64| format!("{:.2} of its set-point", time / set_point);
        line_alone(&format!("set-point off the map, file of {name}"), 20 * turns, &file, files_off_map, of_set_point);
        line_alone(&format!("points of a cell, file of {name}"), turns, &file, file_cells, of_set_point);
        line_alone(&format!("report of a file of {name}"), turns, &file, bench_reports, of_set_point);
    }
    for (name, edits) in [
        ("12 edits done", drawn(16)),
        ("60 edits done", drawn(64)),
        ("124 edits done", drawn(MOST_POINTS)),
        ("124 edits done, 876 refused", filling()),
        ("900 torn edits, 100 done", done_among(100, Outcome::Torn)),
    ] {
        line_withdrawing(&format!("file of {name}, version 2"), 20000 / (edits.len() as u64 + 10), &edits);
    }
    for (name, windows) in [("no windows", 0), ("1 window", 1), ("16 windows", 16), ("64 windows", 64)] {
        line_season(&format!("season of {name}"), windows);
    }
    for (name, edits) in [("no edits", 0), ("10 edits", 10), ("100 edits", 100), ("1,000 edits", 1000)] {
        line_load(&format!("load of {name}"), edits);
    }
}
