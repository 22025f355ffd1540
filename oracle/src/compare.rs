//! The published Rust held against the reading on many random maps: every outcome, the whole store, the listing, walks, rays, knots,
//! evaluations, cells and counts. The first difference stops the run.
use crate::calls::Call;
use crate::draw::{MapList, Plan, Pulls, Withdrawing, cell, full_map, map};
use crate::map_calls::{MapAnswer, MapCall};
use crate::random::Random;
use crate::reading::{Insertion, RING};
use crate::tallies::Numbers;

/// How often each answer occurs, by kind of call; the links inferred, the insertions withdrawn, the openings, the values with a positive and finite
/// weight, all values with a listed point whose pull is not 1.0, the cells that a listed point misses, and those that one of number 64 or more reaches.
#[derive(Default)]
pub struct Tally {
    answers: [Numbers; WORDS.len()],
    openings: u64,
    inferred: u64,
    withdrawn: Withdrawn,
    weighty: u64,
    pulled: u64,
    missed: u64,
    second_words: u64,
}

/// Insertions that were withdrawn, those of them that had inferred a link, and those that were torn by a ring.
#[derive(Default)]
pub struct Withdrawn {
    all: u64,
    inferred: u64,
    by_rings: u64,
}

impl Withdrawn {
    /// Counts an insertion that is withdrawn where it is torn.
    pub fn count(&mut self, answer: &Insertion) {
        if let Insertion::Torn(counts, met) = answer {
            self.all += 1;
            self.inferred += (counts.inferred > 0) as u64;
            self.by_rings += (*met == RING) as u64;
        }
    }

    pub fn print(&self) {
        println!(
            "withdrawn: {}, of them {} after a link was inferred and {} torn by a ring, where the published Rust is not asked",
            self.all, self.inferred, self.by_rings
        );
    }
}

const WORDS: [&str; 15] = [
    "insertion",
    "withdrawing",
    "ray",
    "knots",
    "evaluation",
    "all knots",
    "openings",
    "lent value",
    "set-point",
    "lent set-point",
    "cell",
    "counts",
    "pull set",
    "direct call",
    "walk",
];

impl Tally {
    /// Counts the calls of a list.
    pub fn count_list(&mut self, list: &MapList) {
        list.calls.iter().for_each(|(call, answer)| self.count(*call, answer));
        self.pulled += list.maps.pulled_values;
    }

    fn count(&mut self, call: MapCall, answer: &MapAnswer) {
        let kind = match call {
            MapCall::Insert { withdraws, .. } => withdraws as usize,
            MapCall::Ray { .. } => 2,
            MapCall::Knots { .. } => 3,
            MapCall::Evaluate { .. } => 4,
            MapCall::Generate => 5,
            MapCall::Openings => 6,
            MapCall::Lend { .. } => 7,
            MapCall::SetPoint { .. } => 8,
            MapCall::LentSetPoint { .. } => 9,
            MapCall::CellPoints { .. } => 10,
            MapCall::Counts => 11,
            MapCall::SetPull { .. } => 12,
            MapCall::Direct(Call::Navigate(..)) => 14,
            MapCall::Direct(_) => 13,
        };
        self.answers[kind].count(answer.number());
        if let (MapCall::Insert { withdraws: true, .. }, MapAnswer::Inserted(answer)) = (call, answer) {
            self.withdrawn.count(answer);
        }
        match answer {
            MapAnswer::Inserted(Insertion::Done(counts) | Insertion::Torn(counts, _)) => self.inferred += counts.inferred as u64,
            MapAnswer::Opened(openings) => self.openings += openings.len() as u64,
            MapAnswer::Evaluated(Ok(value)) => self.weighty += (value.weight > 0.0 && value.weight < f64::INFINITY) as u64,
            MapAnswer::Reached(listed, Ok(cell)) => {
                self.missed += ((cell.count as usize) < *listed) as u64;
                self.second_words += (cell.words[1] != 0) as u64;
            }
            _ => {}
        }
    }

    pub fn print(&self) {
        WORDS.iter().zip(self.answers).for_each(|(word, answers)| answers.print(word));
        self.withdrawn.print();
        println!(
            "links inferred: {}; openings: {}; values with a positive and finite weight: {}; values with a pull other than 1.0: {}",
            self.inferred, self.openings, self.weighty, self.pulled
        );
        println!(
            "cells that a listed point misses: {}; that a point of number 64 or more reaches: {}",
            self.missed, self.second_words
        );
    }
}

/// The counts, rays of lengths 0 to 5 and walks from every point and side, the knots of every point, some evaluations and cells.
fn probe(list: &mut MapList, random: &mut Random) {
    let mut calls = vec![MapCall::Counts];
    for point in 0..list.maps.made() as u8 {
        for direction in 0..4 {
            calls.extend((0..=5).map(|count| MapCall::Ray { point, direction, count }));
            calls.extend((0..4).map(|watch| MapCall::Direct(Call::Navigate(point, direction, watch))));
        }
        calls.push(MapCall::Knots { point });
    }
    for _ in 0..6 {
        calls.push(MapCall::Evaluate { s: random.unit(), t: random.unit() });
        calls.push(MapCall::CellPoints { cell: cell(random, &list.maps.reading) });
    }
    for call in calls {
        list.call(call);
    }
}

pub fn run(seed: u64, maps: usize) {
    let mut random = Random::new(seed);
    let mut tally = Tally::default();
    let mut left_behind = 0;
    for place in 0..maps {
        let withdrawing = Withdrawing::of(place);
        let pulls = Pulls::drawn(&mut random);
        let mut list = if place % 50 == 0 {
            full_map(&mut random, withdrawing, pulls)
        } else {
            let edits = random.of(&[3, 6, 10, 20, 40]);
            let plan = Plan { edits: random.below(edits) + 1, questions: true, direct_calls: place % 10 == 0, withdrawing, pulls };
            map(&mut random, plan)
        };
        list.maps.assert_same();
        if list.maps.followed {
            probe(&mut list, &mut random);
            list.maps.assert_same();
        } else {
            left_behind += 1;
        }
        tally.count_list(&list);
    }
    println!("{maps} maps agree; {left_behind} of them were compared only up to an insertion torn by a ring that stays");
    println!("answers, by number:");
    tally.print();
}
