//! Where the published Rust and document 01 differ, shown one by one. The published side runs in a process of its own, which is
//! stopped after some seconds: in a ring it would not end.
use crate::bytes::bits_of;
use crate::draw::RING_PREFIXES;
use crate::original;
use crate::reading::{self, Insertion};
use std::process::{Command, Stdio};
use std::time::{Duration, Instant};

const SECONDS: u64 = 10;
const SQUARE: [[f64; 3]; 4] = [[0.0, 0.0, 0.0], [1.0, 0.0, 0.0], [1.0, 1.0, 1.0], [0.0, 1.0, 1.0]];

/// A map by its border and its edits, evaluated at (0.5, 0.5) at the end.
struct Example {
    words: &'static str,
    border: f64,
    edits: &'static [(u8, usize, f64)],
}

const EXAMPLES: [Example; 11] = [
    Example { words: "six done edits that make a ring", border: 1.0, edits: RING_PREFIXES[0] },
    Example { words: "evaluation after done edits meets a ring", border: 1.0, edits: RING_PREFIXES[1] },
    Example { words: "insertion torn by a ring", border: 1.0, edits: RING_PREFIXES[2] },
    Example { words: "the approach's cap", border: 1.0, edits: RING_PREFIXES[3] },
    Example { words: "the search's cap", border: 1.0, edits: RING_PREFIXES[4] },
    Example { words: "falling knots", border: -1.0, edits: &[] },
    Example { words: "falling knots, both answer", border: -0.25, edits: &[] },
    Example { words: "a NaN among the knots", border: f64::NAN, edits: &[] },
    Example { words: "no difference: lines that miss each other by less than a millionth are joined", border: 1.0, edits: &[(0, 1, 0.5), (3, 1, 0.5000009)] },
    Example { words: "no difference: a search that fails", border: 1.0, edits: &[(0, 1, 0.0)] },
    Example { words: "no difference, to compare with", border: 1.0, edits: &[(0, 1, 0.5)] },
];

fn hexadecimal(floats: &[f64]) -> String {
    floats.iter().map(|x| format!("{:016x}", bits_of(*x))).collect::<Vec<_>>().join(" ")
}

/// Whether links in one direction lead back to where they start.
fn on_closed_line(store: &reading::Store, start: u8, d: usize) -> bool {
    let mut point = start;
    for _ in 0..store.made() {
        let reading::Side::Link(next, _) = store.side(point, d) else { return false };
        point = next;
        if point == start {
            return true;
        }
    }
    false
}

fn by_reading(example: &Example) -> String {
    let mut map = reading::Map::new(SQUARE, example.border);
    let mut answers = Vec::new();
    for &(con, direction, ratio) in example.edits {
        answers.push(match map.add_control_point([0.5; 3], con, direction, ratio) {
            Insertion::Done(_) => "done".to_string(),
            Insertion::Torn(_, met) => format!("torn (the search met {met})"),
            Insertion::Refused(number) => format!("refused {number}"),
        });
    }
    let links = map.store.links();
    let closed = (0..map.store.made() as u8)
        .flat_map(|start| (0..4).map(move |d| (start, d)))
        .filter(|&(start, d)| on_closed_line(&map.store, start, d))
        .count();
    let value = match map.subs(0.5, 0.5) {
        Ok(value) => hexadecimal(&[&value.position[..], &[value.weight]].concat()),
        Err(number) => format!("refused {number}"),
    };
    format!("edits: {}; links: {links}; sides on closed lines: {closed}; evaluation: {value}", answers.join(", "))
}

/// What the published side prints when it runs by itself.
pub fn published_side(place: usize) {
    let example = &EXAMPLES[place];
    let mut map = original::Map::new(SQUARE, example.border);
    print!("edits: ");
    for &(con, direction, ratio) in example.edits {
        let number = map.add_control_point([0.5; 3], con, direction, ratio);
        print!("{number} ");
    }
    print!("links: {} ", reading::Store { points: map.store.read() }.links());
    match map.subs(0.5, 0.5) {
        Ok(position) => println!("evaluation: {}", hexadecimal(&position)),
        Err(number) => println!("evaluation: refused {number}"),
    }
}

fn by_published(place: usize) -> String {
    let program = std::env::current_exe().expect("the program has a path");
    let mut child = Command::new(program)
        .args(["published-side", &place.to_string()])
        .stdout(Stdio::piped())
        .stderr(Stdio::null())
        .spawn()
        .expect("the program can be started again");
    let start = Instant::now();
    while start.elapsed() < Duration::from_secs(SECONDS) {
        if let Some(status) = child.try_wait().expect("a child can be asked") {
            let output = child.wait_with_output().expect("a child that ended has its output");
            let text = String::from_utf8_lossy(&output.stdout).trim().to_string();
            return if status.success() {
                format!("{text} (after {:.1} s)", start.elapsed().as_secs_f64())
            } else {
                "panics".to_string()
            };
        }
        std::thread::sleep(Duration::from_millis(20));
    }
    child.kill().expect("a child that runs can be stopped");
    format!("has not ended after {SECONDS} s")
}

pub fn show() {
    for (place, example) in EXAMPLES.iter().enumerate() {
        println!("{} (border {}, edits {:?})", example.words, example.border, example.edits);
        println!("  document 01:   {}", by_reading(example));
        println!("  the published: {}", by_published(place));
    }
}
