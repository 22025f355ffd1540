// The pieces of work on the published Rust. Included once for each form of its locks, beside the calls by number of oracle/src/original.rs.
use crate::{BORDER, CORNERS, Edit};
use published::t_spline::basis_function;
use std::hint::black_box;

/// The map after edits that are made so; one at a point that was never made is left out.
fn map_by(edits: &[Edit], make: impl Fn(&mut Map, &Edit)) -> Map {
    let mut map = Map::new(CORNERS, BORDER);
    for edit in edits {
        if (edit.point as usize) < map.store.points.len() {
            make(&mut map, edit);
        }
    }
    map
}

fn map_of(edits: &[Edit]) -> Map {
    map_by(edits, |map, edit| {
        map.add_control_point(edit.position, edit.point, edit.direction as usize, edit.ratio);
    })
}

/// The same with each edit made on a copy, which is thrown away where it is torn.
fn map_of_copies(edits: &[Edit]) -> Map {
    map_by(edits, |map, edit| {
        map.add_or_withdraw(edit.position, edit.point, edit.direction as usize, edit.ratio);
    })
}

pub fn insertions(edits: &[Edit], repeats: u64) -> u64 {
    (0..repeats).map(|_| map_of(edits).store.points.len() as u64).sum()
}

pub fn knots(edits: &[Edit], repeats: u64) -> u64 {
    let map = map_of(edits);
    let points = map.store.points.len() as u8;
    (0..repeats).map(|_| (0..points).filter(|&n| black_box(map.store.point_knot_vectors(n)).is_ok()).count() as u64).sum()
}

pub fn evaluations(edits: &[Edit], repeats: u64) -> u64 {
    let map = map_of(edits);
    let (mut s, mut sum) = (0.25, 0.0);
    for _ in 0..repeats {
        let z = map.subs(s, 0.5).map_or(2.0, |position| position[2]);
        sum += z;
        s = 0.25 + z * 0.0625;
    }
    sum.to_bits()
}

pub fn rays(edits: &[Edit], repeats: u64) -> u64 {
    let map = map_of(edits);
    (0..repeats).map(|_| black_box(map.store.cast_ray(0, 1, 2)).map_or(0, |entries| entries.len() as u64)).sum()
}

pub fn walks(edits: &[Edit], repeats: u64) -> u64 {
    let map = map_of(edits);
    (0..repeats).map(|_| black_box(map.store.navigate_until_con(0, 1, 0)).map_or(0, |(point, _)| point as u64)).sum()
}

pub fn bases(_: &[Edit], repeats: u64) -> u64 {
    let (mut u, mut sum) = (0.5, 0.0);
    for _ in 0..repeats {
        let weight = basis_function(u, &[-1.0, -1.0, 0.0, 1.0, 2.0]);
        sum += weight;
        u = 0.25 + weight * 0.0625;
    }
    sum.to_bits()
}

fn set_point(map: Map) -> u64 {
    map.subs(0.5, 0.5).map_or(0, |position| position[2].to_bits() % 7)
}

pub fn files(edits: &[Edit], repeats: u64) -> u64 {
    (0..repeats).map(|_| set_point(map_of(edits))).sum()
}

pub fn copied_files(edits: &[Edit], repeats: u64) -> u64 {
    (0..repeats).map(|_| set_point(map_of_copies(edits))).sum()
}
