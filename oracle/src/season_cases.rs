//! Season files, each with what the C call answers at some minutes.
use crate::bytes::Bytes;
use crate::file_cases::{FILLER, with_byte, with_count};
use crate::map_file::{COUNT_BYTES, LENGTH, SHORT, VERSION};
use crate::random::Random;
use crate::season::{
    CLASH, DAY, DAYS, HEAD_BYTES, MOST_WINDOWS, SEASON_VERSION, SHUT, WINDOW_BYTES, Window, assert_common_minutes, bytes_of,
    common_minute, host_season, read, small_window, windows_of,
};
use crate::tallies::{Numbers, Words};

/// How many are drawn, whole and damaged.
const DRAWN: usize = 120;
const DAMAGED: usize = 160;

/// How many minutes are asked for of a season, at most.
const MOST_MINUTES: usize = 20;
const MOST_ROOM: usize = 16;

/// The minute of the day from which, and to which, a whole day goes.
const WHOLE_DAY: Part = (0, DAY as u16);

/// A span of the season, and a part of the day.
type Span = (u32, u32);
type Part = (u16, u16);

/// A file, what it is kept for, and the C calls made with it: the minute and the length of the buffer.
pub struct Case {
    kind: &'static str,
    season: Vec<u8>,
    calls: Vec<(u32, usize)>,
}

fn window(span: Span, part: Part, map: u8) -> Window {
    Window { opening: span.0, closing: span.1, map, first: part.0, last: part.1 }
}

fn season(windows: &[Window]) -> Vec<u8> {
    bytes_of(SEASON_VERSION, windows)
}

/// One map by day and another after a frost, with a third at night: three windows that touch in the season and in the day.
fn sample() -> Vec<Window> {
    vec![
        window((1441, 120_000), (360, 1080), 1),
        window((120_000, 17_000_000), (360, 1080), 2),
        window((2000, 17_000_000), (1080, 1440), 7),
    ]
}

/// So many windows, each of a week and an eighth of the day, no two of which have both in common.
fn table(count: usize) -> Vec<Window> {
    let week = 7 * DAY;
    let place = |n: usize| {
        let (start, first) = ((n / 8) as u32 * week, (n % 8) as u16 * 180);
        window((start, start + week), (first, first + 180), n as u8)
    };
    (0..count).map(place).collect()
}

/// A window of a span and a part of the day, alone; and two windows whose common span and part they are, in both orders.
fn alone_and_common(span: Span, part: Part) -> Vec<Vec<u8>> {
    let alone = window(span, part, 9);
    let later = window((span.0, span.1.saturating_add(3 * DAY)), (0, part.1), 4);
    let earlier = window((span.0.saturating_sub(3 * DAY), span.1), (part.0, DAY as u16), 5);
    [&[alone][..], &[later, earlier], &[earlier, later]].map(season).into()
}

fn counts_of_windows(_: &mut Random) -> Vec<Vec<u8>> {
    [0, 1, 2, MOST_WINDOWS - 1, MOST_WINDOWS, MOST_WINDOWS + 1, 2 * MOST_WINDOWS].map(|count| season(&table(count))).into()
}

/// The bytes with the count that is right for them.
fn with_own_count(bytes: &[u8]) -> Vec<u8> {
    with_count(bytes, (bytes.len() - COUNT_BYTES) as u32)
}

/// Every prefix of the sample, as it is and with its own count, and as many zeros more as a window has, and one.
fn prefixes(_: &mut Random) -> Vec<Vec<u8>> {
    let sample = season(&sample());
    let longer = [&sample[..], &[0; WINDOW_BYTES + 1]].concat();
    let cut = (0..=sample.len() + 1).map(|length| longer[..length].to_vec());
    cut.chain((COUNT_BYTES..=longer.len()).map(|length| with_own_count(&longer[..length]))).collect()
}

fn counts(_: &mut Random) -> Vec<Vec<u8>> {
    let sample = season(&sample());
    let count = (sample.len() - COUNT_BYTES) as u32;
    let entry = WINDOW_BYTES as u32;
    let off = [count - 1, count + 1, count - entry, count + entry, count + COUNT_BYTES as u32];
    let other = [0, HEAD_BYTES as u32, count + (1 << 8), count + (1 << 16), count + (1 << 24), u32::MAX, count.swap_bytes()];
    off.iter().chain(&other).map(|count| with_count(&sample, *count)).collect()
}

/// Every single byte of the sample changed, to its neighbours and to other ends of what a byte can be.
fn changed_bytes(_: &mut Random) -> Vec<Vec<u8>> {
    let sample = season(&sample());
    let mut files = Vec::new();
    for (at, &byte) in sample.iter().enumerate() {
        let mut values = vec![0, 255, byte ^ 0x80, byte.wrapping_add(1), byte.wrapping_sub(1)];
        values.sort();
        values.dedup();
        files.extend(values.iter().filter(|value| **value != byte).map(|value| with_byte(&sample, at, *value)));
    }
    files
}

/// Bytes that stand for no version.
const NO_VERSIONS: [u8; 7] = [0, 2, 3, 16, 49, 129, 255];

/// The sample with its first window again at the end, which clashes.
fn clashing() -> Vec<Window> {
    let windows = sample();
    [&windows[..], &windows[..1]].concat()
}

fn versions(_: &mut Random) -> Vec<Vec<u8>> {
    let bad = vec![window((0, 10), (0, DAY as u16 + 1), 1)];
    let lists = [vec![], sample(), clashing(), bad];
    lists.iter().flat_map(|windows| NO_VERSIONS.map(|version| bytes_of(version, windows))).collect()
}

/// A first or last at and above the end of a day in every place, with another version and with a clash at the same time.
fn ends_of_days(_: &mut Random) -> Vec<Vec<u8>> {
    let mut files = Vec::new();
    for place in 0..sample().len() {
        for value in [0, 1439, 1440, 1441, 65535] {
            for (version, windows) in [(1, sample()), (2, sample()), (1, clashing()), (2, clashing())] {
                let (mut firsts, mut lasts) = (windows.clone(), windows);
                firsts[place].first = value;
                lasts[place].last = value;
                files.extend([firsts, lasts].map(|windows| bytes_of(version, &windows)));
            }
        }
    }
    files
}

/// Windows that hold in no minute, or in few: alone, common to two, and before and behind the sample.
fn no_minute(_: &mut Random) -> Vec<Vec<u8>> {
    let parts = [(0, 0), (720, 720), (1440, 1440), (721, 720), (1440, 0), (1440, 1439), (1439, 1440), (0, 1), (720, 721)];
    let spans = [(0, 0), (5, 5), (u32::MAX, u32::MAX), (6, 5), (u32::MAX, 0), (u32::MAX, u32::MAX - 1), (0, 1), (5, 6)];
    let of_parts = parts.map(|part| ((0, 50_000), part));
    let of_spans = spans.map(|span| (span, WHOLE_DAY));
    let mut files = Vec::new();
    for (span, part) in of_parts.into_iter().chain(of_spans) {
        files.extend(alone_and_common(span, part));
        let odd = [window(span, part, 9)];
        files.extend([[&odd[..], &sample()].concat(), [&sample()[..], &odd].concat()].map(|windows| season(&windows)));
    }
    files
}

/// A span of 100 minutes across a midnight, and parts of the day that miss it, or meet it in one minute or a few.
fn short_spans(_: &mut Random) -> Vec<Vec<u8>> {
    let misses = [(60, 1400), (61, 1399), (60, 61), (1399, 1400), (700, 710)];
    let meets = [(59, 1400), (60, 1401), (59, 60), (1400, 1401), (0, 1), (1439, 1440), WHOLE_DAY];
    let mut files = Vec::new();
    for midnight in [DAY, 10 * DAY, (u32::MAX / DAY) * DAY] {
        for part in misses.iter().chain(&meets) {
            files.extend(alone_and_common((midnight - 40, midnight + 60), *part));
        }
    }
    files
}

/// Spans and parts of the day that have one minute in common: one of them has no other, or the minute is the first of one and the last of the other. Then the same
/// with each end moved inwards by a minute.
fn one_minute(random: &mut Random) -> Vec<Vec<u8>> {
    let mut files = Vec::new();
    for start in [DAY, 5 * DAY, 1 << 20, u32::MAX - 2 * DAY] {
        let minute = start + random.below(DAY as usize) as u32;
        let of_day = (minute % DAY) as u16;
        let exact = [
            ((minute, minute + 1), WHOLE_DAY),
            ((minute - 700, minute + 700), (of_day, of_day + 1)),
            ((minute, minute + 900), (of_day.saturating_sub(500), of_day + 1)),
            ((minute - 900, minute + 1), (of_day, DAY.min(of_day as u32 + 500) as u16)),
        ];
        for ((opening, closing), (first, last)) in exact {
            let less = [
                ((opening + 1, closing), (first, last)),
                ((opening, closing - 1), (first, last)),
                ((opening, closing), (first + 1, last)),
                ((opening, closing), (first, last - 1)),
            ];
            files.extend(alone_and_common((opening, closing), (first, last)));
            files.extend(less.into_iter().flat_map(|(span, part)| alone_and_common(span, part)));
        }
    }
    files
}

/// Two windows that touch, overlap by a minute or leave one between them, in the season; and so in the day, or with all of it in common.
fn touching(_: &mut Random) -> Vec<Vec<u8>> {
    let parts = [
        (WHOLE_DAY, WHOLE_DAY),
        ((0, 720), (719, 1440)),
        ((0, 720), (720, 1440)),
        ((720, 1440), (0, 720)),
        ((0, 720), (721, 1440)),
    ];
    let mut files = Vec::new();
    for turn in [10 * DAY, 10 * DAY + 1, 10 * DAY + 719, 10 * DAY + 720] {
        for closing in [turn - 1, turn, turn + 1, 20 * DAY] {
            for (part, other) in parts {
                let pair = [window((300, closing), part, 1), window((turn, 40 * DAY), other, 2)];
                files.extend([season(&pair), season(&[pair[1], pair[0]])]);
            }
        }
    }
    files
}

/// The last minutes that can be asked for: no window holds at the last of all.
fn last_minutes(_: &mut Random) -> Vec<Vec<u8>> {
    let last = u32::MAX - 1;
    let (this, next) = ((last % DAY) as u16, (last % DAY) as u16 + 1);
    let parts = [WHOLE_DAY, (this, next), (this - 1, this), (next, next + 1), (0, this), (next, 1440)];
    let spans = [(last, u32::MAX), (last - 1, u32::MAX), (last - 1, last), (0, u32::MAX)];
    spans.iter().flat_map(|span| parts.iter().flat_map(|part| alone_and_common(*span, *part))).collect()
}

/// Two of many that clash, at every place of six windows and at some of as many as there may be, where also one that holds in no minute stands.
fn places(_: &mut Random) -> Vec<Vec<u8>> {
    let repeated = |count: usize, place: usize, of: usize| {
        let mut windows = table(count);
        windows[place] = Window { map: windows[place].map, ..windows[of] };
        season(&windows)
    };
    let shut = |place: usize| {
        let mut windows = table(MOST_WINDOWS);
        windows[place].last = windows[place].first;
        season(&windows)
    };
    let end = MOST_WINDOWS - 1;
    let pairs = [(0, 1), (1, 0), (0, end), (end, 0), (end - 1, end), (end, end - 1), (31, 32)];
    let mut files: Vec<Vec<u8>> = (0..36).filter(|n| n / 6 != n % 6).map(|n| repeated(6, n / 6, n % 6)).collect();
    files.extend(pairs.map(|(place, of)| repeated(MOST_WINDOWS, place, of)));
    files.extend([0, 31, end].map(shut));
    files
}

/// A window twice, as it is and with another map's number; and windows apart with one map's number.
fn repeated(_: &mut Random) -> Vec<Vec<u8>> {
    let one = sample()[0];
    let alike: Vec<Window> = sample().iter().map(|window| Window { map: 3, ..*window }).collect();
    [vec![one, one], vec![one, Window { map: 2, ..one }], vec![one, one, one], alike].map(|windows| season(&windows)).into()
}

/// A place within a span to cut it at, often at a midnight or beside one of the minutes of the day.
fn place_within(random: &mut Random, (start, end): Span, part: Part) -> u32 {
    let any = start + 1 + random.below((end - start - 1) as usize) as u32;
    let near = (any - any % DAY).saturating_add(random.of(&[0, part.0 as u32, part.1 as u32]));
    if random.one_in(2) && start < near && near < end { near } else { any }
}

/// A window cut in two, in the season or in the day, where it is long enough.
fn cut(random: &mut Random, whole: Window) -> Option<[Window; 2]> {
    let Window { opening, closing, first, last, .. } = whole;
    if random.one_in(2) {
        let at = (closing - opening > 1).then(|| place_within(random, (opening, closing), (first, last)))?;
        return Some([Window { closing: at, ..whole }, Window { opening: at, ..whole }]);
    }
    let at = (last - first > 1).then(|| first + 1 + random.below((last - first - 1) as usize) as u16)?;
    Some([Window { last: at, ..whole }, Window { first: at, ..whole }])
}

fn can_hold(window: &Window) -> bool {
    common_minute(window, window).is_some()
}

/// At most so many windows that have no minute in common and hold in one each: a long window cut again and again. At times some are left out, and they are
/// shuffled.
fn apart(random: &mut Random, most: usize) -> Vec<Window> {
    let ends = [(0, 3 * DAY), (17, 5000), (0, 525_600), (u32::MAX - 10_000, u32::MAX), (0, u32::MAX)];
    let mut windows = vec![window(random.of(&ends), random.of(&[WHOLE_DAY, WHOLE_DAY, (360, 1200)]), 0)];
    for _ in 1..3 * most {
        let place = random.below(windows.len());
        match cut(random, windows[place]) {
            Some(parts) if windows.len() < most && parts.iter().all(can_hold) => {
                windows[place] = parts[0];
                windows.push(parts[1]);
            }
            _ => {}
        }
    }
    let (maps, gaps) = (random.of(&[2, 256]), random.of(&[2, 5, usize::MAX]));
    windows.retain(|_| !random.one_in(gaps));
    windows.iter_mut().for_each(|window| window.map = random.below(maps) as u8);
    for place in (1..windows.len()).rev() {
        windows.swap(place, random.below(place + 1));
    }
    windows
}

fn some_apart(random: &mut Random) -> Vec<Window> {
    let most = random.of(&[1, 3, 8, 24, MOST_WINDOWS]);
    let fewer = 1 + random.below(most);
    let most = random.of(&[most, fewer, fewer]);
    apart(random, most)
}

fn drawn(random: &mut Random) -> Vec<Vec<u8>> {
    (0..DRAWN).map(|_| season(&some_apart(random))).collect()
}

/// Moves an end of a window by a minute, most often so that it is longer.
fn move_end(random: &mut Random, window: &mut Window) {
    let (more, less) = if random.one_in(4) { (-1, 1) } else { (1, -1) };
    match random.below(4) {
        0 => window.opening = window.opening.saturating_add_signed(less),
        1 => window.closing = window.closing.saturating_add_signed(more),
        2 => window.first = window.first.saturating_add_signed(less as i16),
        _ => window.last = window.last.saturating_add_signed(more as i16),
    }
}

/// Changes a list of windows in one place: an end is moved by a minute, the window stands there again, or a minute is past the day.
fn damage(random: &mut Random, windows: &mut Vec<Window>) {
    let place = random.below(windows.len());
    match random.below(8) {
        0..=3 => move_end(random, &mut windows[place]),
        4..=5 => windows.push(windows[place]),
        6 => windows[place].first = DAY as u16 + 1,
        _ => windows[place].last = DAY as u16 + 1,
    }
}

/// A season of windows apart that has other windows, another version, a byte changed or its end cut off, or several of these.
fn damaged_season(random: &mut Random) -> Vec<u8> {
    let mut windows = some_apart(random);
    if !windows.is_empty() && !random.one_in(4) {
        damage(random, &mut windows);
    }
    let other = random.of(&NO_VERSIONS);
    let mut bytes = bytes_of(random.of(&[SEASON_VERSION, SEASON_VERSION, SEASON_VERSION, SEASON_VERSION, other]), &windows);
    match random.below(8) {
        0..=1 => {
            let at = random.below(bytes.len());
            bytes[at] = random.bits() as u8;
        }
        2 => bytes = with_own_count(&bytes[..COUNT_BYTES + random.below(bytes.len() - COUNT_BYTES)]),
        _ => {}
    }
    bytes
}

fn damaged(random: &mut Random) -> Vec<Vec<u8>> {
    (0..DAMAGED).map(|_| damaged_season(random)).collect()
}

/// Bytes drawn at random: as they come, with a count that is right, with the version too, and with minutes of a day.
fn noise(random: &mut Random) -> Vec<Vec<u8>> {
    let mut bytes = |length: usize| -> Vec<u8> { (0..length).map(|_| random.bits() as u8).collect() };
    let mut files: Vec<Vec<u8>> = [1, 2, 3, 4, 5, 18, 44, 4000].map(&mut bytes).into();
    for count in [0, 1, 1, 2, 3, 10, 64] {
        let counted = with_own_count(&bytes(COUNT_BYTES + HEAD_BYTES + WINDOW_BYTES * count));
        let versioned = with_byte(&counted, COUNT_BYTES, SEASON_VERSION);
        let mut windows = windows_of(&versioned).expect("the count is right");
        windows.iter_mut().for_each(|window| (window.first, window.last) = (window.first % 1441, window.last % 1441));
        files.extend([counted, versioned, season(&windows)]);
    }
    files
}

/// The minutes at which what is answered may change, each with the one before and the one behind: the ends of the season's windows, and of their days the
/// midnights, firsts and lasts near those ends.
fn edges(windows: &[Window]) -> Vec<u32> {
    let mut edges = vec![0, u32::MAX as u64];
    for window in windows {
        for end in [window.opening, window.closing] {
            let midnight = (end - end % DAY) as u64;
            edges.push(end as u64);
            for day in [midnight, midnight + DAY as u64] {
                edges.extend([day, day + window.first as u64, day + window.last as u64]);
            }
        }
    }
    let around = edges.iter().flat_map(|edge| [edge.saturating_sub(1), *edge, edge + 1]);
    let mut minutes: Vec<u32> = around.filter_map(|minute| u32::try_from(minute).ok()).collect();
    minutes.sort();
    minutes.dedup();
    minutes
}

/// Minutes and buffers for the C call: so many of the edges, one minute of a refused file, a minute drawn, and at times a buffer that is too short.
fn calls(random: &mut Random, season: &[u8], most: usize) -> Vec<(u32, usize)> {
    let most = if read(season).is_ok() { most } else { 1 };
    let mut minutes = edges(&windows_of(season).unwrap_or_default());
    while minutes.len() > most {
        minutes.swap_remove(random.below(minutes.len()));
    }
    minutes.push(random.bits() as u32);
    let mut calls: Vec<(u32, usize)> = minutes.iter().map(|minute| (*minute, random.of(&[1, 2, MOST_ROOM]))).collect();
    if random.one_in(4) {
        calls.push((minutes[0], 0));
    }
    calls
}

impl Case {
    /// The version and the windows that stand in the file, where they do.
    pub fn windows(&self) -> Option<(u8, Vec<Window>)> {
        windows_of(&self.season).map(|windows| (self.season[COUNT_BYTES], windows))
    }

    /// The same calls on a file with other windows.
    pub fn with_windows(&self, windows: &[Window]) -> Case {
        let season = bytes_of(self.season[COUNT_BYTES], windows);
        Case { kind: self.kind, season, calls: self.calls.clone() }
    }

    pub fn length(&self) -> usize {
        self.season.len()
    }
}

/// A few windows of the same days at the season's start or end, which may clash; most often each holds in some minute.
fn few_small(random: &mut Random) -> Vec<Window> {
    let start = random.of(&[0, u32::MAX - DAYS * DAY]);
    let any = random.one_in(8);
    let count = 1 + random.below(3);
    std::iter::repeat_with(|| small_window(random, start)).filter(|window| any || can_hold(window)).take(count).collect()
}

/// A season of windows apart, such a one damaged, or a few windows of the same days.
pub fn fresh(random: &mut Random, place: usize) -> Case {
    let season = match place % 3 {
        0 => season(&some_apart(random)),
        1 => damaged_season(random),
        _ => season(&few_small(random)),
    };
    let calls = calls(random, &season, MOST_MINUTES);
    Case { kind: "fresh", season, calls }
}

/// A case's bytes, its length first.
pub fn encoded(case: &Case) -> Vec<u8> {
    let mut body = Bytes::default();
    body.pair(case.season.len() as u16);
    body.0.extend(&case.season);
    body.byte(u8::try_from(case.calls.len()).expect("at most 255 calls"));
    for &(minute, room) in &case.calls {
        body.0.extend(minute.to_be_bytes());
        body.byte(room as u8);
        let answer = host_season(&case.season, minute, room);
        body.byte(answer.err().unwrap_or(0));
        body.byte(answer.unwrap_or(FILLER));
    }
    body.with_length()
}

/// What files are kept for, and those files.
type Kind = (&'static str, fn(&mut Random) -> Vec<Vec<u8>>);

const KINDS: [Kind; 17] = [
    ("the sample", |_| vec![season(&sample())]),
    ("counts of windows", counts_of_windows),
    ("prefixes", prefixes),
    ("counts", counts),
    ("bytes changed", changed_bytes),
    ("versions", versions),
    ("ends of days", ends_of_days),
    ("no minute", no_minute),
    ("short spans", short_spans),
    ("one minute", one_minute),
    ("touching", touching),
    ("last minutes", last_minutes),
    ("places", places),
    ("repeated", repeated),
    ("drawn", drawn),
    ("damaged", damaged),
    ("noise", noise),
];

/// Of the sample every edge is asked for.
fn most_minutes(kind: &str) -> usize {
    if kind == "the sample" { usize::MAX } else { MOST_MINUTES }
}

pub fn write(seed: u64) {
    let mut random = Random::new(seed);
    assert_common_minutes(&mut random);
    let mut cases = Vec::new();
    for (kind, files) in KINDS {
        for season in files(&mut random) {
            let calls = calls(&mut random, &season, most_minutes(kind));
            cases.push(Case { kind, season, calls });
        }
    }
    let mut out = Bytes::default();
    let (mut kinds, mut table) = <(Words, Table)>::default();
    for case in &cases {
        kinds.count(case.kind);
        table.count(case);
        out.0.extend(encoded(case));
    }
    println!("{} seasons", cases.len());
    kinds.print("kinds");
    table.print();
    assert!(table.calls.have(&[0, LENGTH, VERSION, SHORT, CLASH, SHUT]));
    out.write("crates/season_replay/data/cases");
}

/// What is answered on reading the files and by the calls, and how many windows those files have that are read.
#[derive(Default)]
pub struct Table {
    files: Numbers,
    calls: Numbers,
    windows: usize,
}

impl Table {
    pub fn count(&mut self, case: &Case) {
        let read = read(&case.season);
        self.files.count(read.as_ref().err().copied().unwrap_or(0));
        self.windows += read.map_or(0, |windows| windows.len());
        for &(minute, room) in &case.calls {
            self.calls.count(host_season(&case.season, minute, room).err().unwrap_or(0));
        }
    }

    pub fn print(&self) {
        self.files.print("seasons");
        println!("{:12} {}", "windows", self.windows);
        self.calls.print("C calls");
    }
}
