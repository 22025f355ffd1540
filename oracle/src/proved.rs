//! The proved programs held against the published Rust on fresh cases. A list is drawn with the answers of the published Rust, and of the reading
//! where that has none; the program that replays such lists, which is built from the proved crates, judges it. A list that it calls
//! wrong is found by halving the lists, and made smaller by leaving out calls as long as it stays wrong.
use crate::basis_cases;
use crate::bound;
use crate::compare::Tally;
use crate::draw::{BEYOND_MAP, MapList, Plan, Pulls, Withdrawing, full_map, map, parameter, place, places};
use crate::file_cases;
use crate::load::assert_draws;
use crate::load_cases::{self, Call};
use crate::map_calls::MapCall;
use crate::map_cases;
use crate::map_file::{self, MOST_EDITS};
use crate::random::Random;
use crate::season::assert_common_minutes;
use crate::season_cases;
use crate::store_cases;
use std::fmt::Debug;
use std::path::{Path, PathBuf};
use std::process::Command;

/// How many lists are judged at a time.
const AT_A_TIME: usize = 500;
const VALUES: usize = 24;
/// How many cells of a full map are asked for.
const CELLS: usize = 24;

/// A program that replays the file `cases` of the folder in which it is run, and writes `right N wrong M`.
struct Program {
    path: PathBuf,
    folder: PathBuf,
}

impl Program {
    fn new(name: &str) -> Program {
        let root = std::env::current_dir().expect("a folder to work in");
        let folder = root.join("target/oracle/proved").join(name);
        std::fs::create_dir_all(&folder).expect("the folder can be made");
        Program { path: root.join("target/bin").join(name), folder }
    }

    /// How many of these cases it calls wrong. It must judge all.
    fn wrong(&self, cases: &[Vec<u8>]) -> usize {
        std::fs::write(self.folder.join("cases"), cases.concat()).expect("the cases can be written");
        let said = run(&self.path, &self.folder);
        let words: Vec<&str> = said.split_whitespace().collect();
        let ["right", right, "wrong", wrong] = words[..] else { panic!("{} said {said:?}", self.path.display()) };
        let (right, wrong): (usize, usize) = (right.parse().expect("a count"), wrong.parse().expect("a count"));
        assert_eq!(right + wrong, cases.len(), "{} judged another number of cases", self.path.display());
        wrong
    }

    /// The places of the cases that it calls wrong.
    fn wrong_places(&self, cases: &[Vec<u8>], start: usize, found: &mut Vec<usize>) {
        if cases.is_empty() || self.wrong(cases) == 0 {
            return;
        }
        if cases.len() == 1 {
            return found.push(start);
        }
        let (first, second) = cases.split_at(cases.len() / 2);
        self.wrong_places(first, start, found);
        self.wrong_places(second, start + first.len(), found);
    }

    /// The calls of a wrong list without those that it is wrong without.
    fn shrink<C: Clone>(&self, calls: &[C], encode: impl Fn(&[C]) -> Vec<u8>) -> Vec<C> {
        let mut calls = calls.to_vec();
        let mut size = calls.len() / 2;
        while size > 0 {
            let mut start = 0;
            while start < calls.len() {
                let end = (start + size).min(calls.len());
                let fewer = [&calls[..start], &calls[end..]].concat();
                if self.wrong(&[encode(&fewer)]) == 1 {
                    calls = fewer;
                } else {
                    start = end;
                }
            }
            size /= 2;
        }
        calls
    }
}

fn run(program: &Path, folder: &Path) -> String {
    let done = Command::new(program).current_dir(folder).output().expect("the program can be run");
    String::from_utf8(done.stdout).expect("text")
}

/// Judges lists that are drawn one by one; `show` says what a wrong one is, made small.
fn judge<L>(name: &str, count: usize, mut draw: impl FnMut(usize) -> (L, Vec<u8>), show: impl Fn(&Program, &L) -> String) -> usize {
    let program = Program::new(name);
    let mut different = 0;
    for start in (0..count).step_by(AT_A_TIME) {
        let drawn: Vec<(L, Vec<u8>)> = (start..count.min(start + AT_A_TIME)).map(&mut draw).collect();
        let (lists, cases): (Vec<L>, Vec<Vec<u8>>) = drawn.into_iter().unzip();
        let mut found = Vec::new();
        program.wrong_places(&cases, 0, &mut found);
        for place in found {
            different += 1;
            println!("DIFFERENT, {name} list {}: {}", start + place, show(&program, &lists[place]));
        }
    }
    println!("{name}: {count} judged, {different} different");
    different
}

fn lines<C: Debug>(calls: &[C]) -> String {
    calls.iter().map(|call| format!("\n    {call:?}")).collect()
}

/// Rays of length 5 from every point and side, the knots of every point, the openings, the counts, and values and cells, after what was drawn.
fn probed(mut list: MapList, random: &mut Random) -> MapList {
    for point in 0..list.maps.made() as u8 {
        for direction in 0..4 {
            list.call(MapCall::Ray { point, direction, count: 5 });
        }
        list.call(MapCall::Knots { point });
    }
    list.call(MapCall::Openings);
    list.call(MapCall::Counts);
    some_values(&mut list, random);
    list
}

/// Values, with cells between them. Somewhere among them the knots of all points are built anew.
fn some_values(list: &mut MapList, random: &mut Random) {
    let generation = random.below(VALUES + 1);
    for value in 0..VALUES {
        if value == generation {
            list.call(MapCall::Generate);
        }
        let (s, t) = (parameter(random), parameter(random));
        list.call(match value % 4 {
            0 => MapCall::Lend { s, t },
            1 => MapCall::SetPoint { s, t },
            2 => MapCall::LentSetPoint { s, t },
            _ => MapCall::Evaluate { s, t },
        });
        map_cases::some_cells(list, random, value % 2);
    }
}

/// An insertion, which drops the knots where it is done, and a set-point off the map. The list ends with it, so that the knots kept after it show.
fn end_beyond(list: &mut MapList, random: &mut Random) {
    let (con, direction) = place(random, &list.maps);
    list.insert(random, con, direction, 0.5);
    let beyond: Vec<(f64, f64)> = places(&BEYOND_MAP).collect();
    let (s, t) = random.of(&beyond);
    list.call(random.of(&[MapCall::SetPoint { s, t }, MapCall::LentSetPoint { s, t }]));
}

fn map_list(random: &mut Random, place: usize) -> MapList {
    let withdrawing = Withdrawing::of(place);
    let pulls = Pulls::drawn(random);
    if place % 100 == 0 {
        let mut list = full_map(random, withdrawing, pulls);
        map_cases::some_cells(&mut list, random, CELLS);
        list.call(MapCall::Counts);
        some_values(&mut list, random);
        return list;
    }
    let edits = random.of(&[3, 6, 10, 20, 40]);
    let plan = Plan { edits: random.below(edits) + 1, questions: true, direct_calls: place % 5 == 0, withdrawing, pulls };
    let list = map(random, plan);
    let mut list = probed(list, random);
    if random.one_in(4) {
        end_beyond(&mut list, random);
    }
    list
}

/// What a map list that the program calls wrong is, made small.
fn shrunk(program: &Program, list: &MapList) -> String {
    let calls: Vec<MapCall> = list.calls.iter().map(|(call, _)| *call).collect();
    let again = |calls: &[MapCall]| {
        let mut again = MapList::new(list.maps.corners, list.maps.border);
        calls.iter().for_each(|call| drop(again.call(*call)));
        map_cases::encoded(&again)
    };
    format!("border {:?}, corners {:?}{}", list.maps.border, list.maps.corners, lines(&program.shrink(&calls, again)))
}

fn maps(random: &mut Random, count: usize) -> usize {
    let mut tally = Tally::default();
    let mut torn_by_rings = 0;
    let different = judge(
        "map_replay",
        count,
        |place| {
            let list = map_list(random, place);
            tally.count_list(&list);
            torn_by_rings += !list.maps.followed as usize;
            let case = map_cases::encoded(&list);
            (list, case)
        },
        shrunk,
    );
    println!("answers, by number ({torn_by_rings} lists hold an insertion torn by a ring that stays, after which the reading alone answers):");
    tally.print();
    different
}

fn stores(random: &mut Random, count: usize) -> usize {
    judge(
        "store_replay",
        count,
        |place| {
            let list = store_cases::drawn(random, place);
            let case = store_cases::encoded(&list);
            (list, case)
        },
        |program, list| lines(&program.shrink(&list.made_calls(), |calls| store_cases::encoded(&store_cases::List::of(calls)))),
    )
}

fn bases(random: &mut Random, count: usize) -> usize {
    judge(
        "basis_replay",
        count,
        |place| {
            let case = basis_cases::drawn(random, place);
            (case, basis_cases::encoded(case))
        },
        |_, case| format!("{case:?}"),
    )
}

fn files(random: &mut Random, count: usize) -> usize {
    let mut runs = file_cases::Runs::default();
    let different = judge(
        "file_replay",
        count,
        |place| {
            let case = file_cases::fresh(random, place);
            let bytes = file_cases::encoded(&case);
            runs.count(&case);
            (case, bytes)
        },
        |program, case| match case.edits() {
            Some((file, edits)) => {
                let again = |edits: &[_]| file_cases::encoded(&case.with_edits(&file, edits));
                let head = format!("version {}, border {:?}, corners {:?}", file.version, file.border, file.corners);
                head + &lines(&program.shrink(&edits, again))
            }
            None => format!("a refused file of {} bytes", case.length()),
        },
    );
    runs.print();
    different
}

fn seasons(random: &mut Random, count: usize) -> usize {
    assert_common_minutes(random);
    let mut table = season_cases::Table::default();
    let different = judge(
        "season_replay",
        count,
        |place| {
            let case = season_cases::fresh(random, place);
            let bytes = season_cases::encoded(&case);
            table.count(&case);
            (case, bytes)
        },
        |program, case| match case.windows() {
            Some((version, windows)) => {
                let again = |windows: &[_]| season_cases::encoded(&case.with_windows(windows));
                format!("version {version}{}", lines(&program.shrink(&windows, again)))
            }
            None => format!("a refused file of {} bytes", case.length()),
        },
    );
    table.print();
    different
}

/// What a load that the program calls wrong is, and the one with the fewest edits that it calls wrong too, where they can be fewer.
fn fewest_edits(program: &Program, call: Call) -> String {
    let is_wrong = |call: &Call| program.wrong(&[load_cases::encoded(call)]) == 1;
    let fewest = (0..call.edits.min(MOST_EDITS as u64)).map(|edits| Call { edits, ..call }).find(is_wrong);
    lines(&[Some(call), fewest].into_iter().flatten().collect::<Vec<Call>>())
}

fn loads(random: &mut Random, count: usize) -> usize {
    assert_draws(random);
    let mut table = load_cases::Table::default();
    let different = judge(
        "load_replay",
        count,
        |place| {
            let call = load_cases::fresh(random, place);
            table.count(&call);
            (call, load_cases::encoded(&call))
        },
        |program, call| fewest_edits(program, *call),
    );
    table.print();
    different
}

/// So many evaluations with hostile numbers: none outside 0 to 1, and the proved program gives the same bits.
pub fn bound(seed: u64, evaluations: usize) {
    let mut random = Random::new(seed);
    let mut tried = bound::Tried::default();
    let drawn = |_| {
        let list = bound::list(&mut random, &mut tried);
        let case = map_cases::encoded(&list);
        (list, case)
    };
    let different = judge("map_replay", evaluations.div_ceil(bound::EVALUATIONS), drawn, shrunk);
    tried.print();
    assert_eq!((different, tried.outside), (0, 0));
}

/// So many maps, as many map files, lists of direct calls, seasons and loads, and six times as many basis cases, all from one seed.
pub fn compare(seed: u64, count: usize) {
    map_file::assert_sample_answers();
    let mut random = Random::new(seed);
    let different = maps(&mut random, count)
        + files(&mut random, count)
        + stores(&mut random, count)
        + seasons(&mut random, count)
        + loads(&mut random, count)
        + bases(&mut random, 6 * count);
    assert_eq!(different, 0, "the proved programs and the published Rust differ");
}
