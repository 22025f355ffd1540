//! A second reading of the season file and of what the C call answers with it, written from the request that describes them (Ticket 7 of
//! document 02).
use crate::map_file::{COUNT_BYTES, Front, LENGTH, SHORT, VERSION, counted};
use crate::random::Random;
use crate::reading::Refused;

pub const CLASH: u8 = 18;
pub const SHUT: u8 = 19;

/// The bytes after the count without windows, those of a window, and how many windows there may be.
pub const HEAD_BYTES: usize = 1;
pub const WINDOW_BYTES: usize = 13;
pub const MOST_WINDOWS: usize = 64;

/// The version that there is.
pub const SEASON_VERSION: u8 = 1;

/// The minutes of a day.
pub const DAY: u32 = 1440;

/// What the C call writes: a map's number.
pub const MAP_BYTES: usize = 1;

#[derive(Clone, Copy, Debug, PartialEq)]
pub struct Window {
    pub opening: u32,
    pub closing: u32,
    pub map: u8,
    pub first: u16,
    pub last: u16,
}

impl Window {
    pub fn holds(&self, minute: u32) -> bool {
        let of_day = minute % DAY;
        self.opening <= minute && minute < self.closing && self.first as u32 <= of_day && of_day < self.last as u32
    }
}

/// A minute at which both of two windows hold, where there is one: the first of the earliest day of their common span that has one.
///
/// Every day between the first and the last of the span is whole in it, so that no more than two are gone through in vain.
pub fn common_minute(one: &Window, other: &Window) -> Option<u32> {
    let (opening, closing) = (one.opening.max(other.opening) as u64, one.closing.min(other.closing) as u64);
    let (first, last) = (one.first.max(other.first) as u64, one.last.min(other.last) as u64);
    if first >= last {
        return None;
    }
    let day = DAY as u64;
    let earliest_of = |n: u64| {
        let (start, end) = (opening.max(n * day + first), closing.min(n * day + last));
        (start < end).then_some(start as u32)
    };
    (opening / day..=closing / day).find_map(earliest_of)
}

/// Whether two windows hold in some common minute, or one can hold in none. A window holds in common with itself wherever it holds.
fn clash(windows: &[Window]) -> bool {
    let meet = |n: usize, k: usize| common_minute(&windows[n], &windows[k]).is_some();
    (0..windows.len()).any(|n| !meet(n, n) || (0..n).any(|k| meet(n, k)))
}

/// The windows that are laid out in a file, whatever they and its version are, where its length is that of whole windows.
pub fn windows_of(season: &[u8]) -> Option<Vec<Window>> {
    let count = counted(season, HEAD_BYTES, WINDOW_BYTES, MOST_WINDOWS)?;
    let mut front = Front(&season[COUNT_BYTES + HEAD_BYTES..]);
    let mut window = || Window {
        opening: u32::from_be_bytes(front.take()),
        closing: u32::from_be_bytes(front.take()),
        map: front.byte(),
        first: u16::from_be_bytes(front.take()),
        last: u16::from_be_bytes(front.take()),
    };
    Some((0..count).map(|_| window()).collect())
}

/// A file's windows, or its refusal: the length and the minutes of a day, then the version, then clashes.
pub fn read(season: &[u8]) -> Refused<Vec<Window>> {
    let windows = windows_of(season).ok_or(LENGTH)?;
    if windows.iter().any(|window| window.first as u32 > DAY || window.last as u32 > DAY) {
        return Err(LENGTH);
    }
    if season[COUNT_BYTES] != SEASON_VERSION {
        return Err(VERSION);
    }
    if clash(&windows) {
        return Err(CLASH);
    }
    Ok(windows)
}

/// The bytes of a file whose count is right.
pub fn bytes_of(version: u8, windows: &[Window]) -> Vec<u8> {
    let mut out = ((HEAD_BYTES + windows.len() * WINDOW_BYTES) as u32).to_be_bytes().to_vec();
    out.push(version);
    for window in windows {
        out.extend([window.opening.to_be_bytes(), window.closing.to_be_bytes()].concat());
        out.push(window.map);
        out.extend([window.first.to_be_bytes(), window.last.to_be_bytes()].concat());
    }
    out
}

/// What the C call answers: 16 before all else, then the file's refusal, then 19 where no window holds, else the map's number. Of a file that is read
/// no two hold.
pub fn host_season(season: &[u8], minute: u32, room: usize) -> Refused<u8> {
    if room < MAP_BYTES {
        return Err(SHORT);
    }
    let windows = read(season)?;
    let holding: Vec<&Window> = windows.iter().filter(|window| window.holds(minute)).collect();
    assert!(holding.len() < 2, "{holding:?} hold at {minute}");
    holding.first().map(|window| window.map).ok_or(SHUT)
}

/// How many pairs of windows are gone through minute by minute, and through how many days.
const PAIRS: usize = 4000;
pub const DAYS: u32 = 3;

/// A window of the days after a minute, as good or bad as it comes.
pub fn small_window(random: &mut Random, start: u32) -> Window {
    let minutes = (DAYS * DAY) as usize;
    let length = random.of(&[3, 100, 1500, minutes]);
    let opening = start + random.below(minutes) as u32;
    let closing = opening.saturating_sub(1).saturating_add(random.below(length) as u32).min(start + DAYS * DAY);
    let first = random.below(DAY as usize + 1) as u16;
    let last = (first + random.below(length.min(700)) as u16).min(DAY as u16);
    Window { opening, closing, map: 0, first, last }
}

/// Of small windows drawn, at the season's start and at its end, those that hold in a common minute are those that a look at every minute finds.
pub fn assert_common_minutes(random: &mut Random) {
    for place in 0..PAIRS {
        let start = [0, u32::MAX - DAYS * DAY][place % 2];
        let (one, other) = (small_window(random, start), small_window(random, start));
        for (one, other) in [(one, other), (other, one), (one, one)] {
            let found = (start..=start + DAYS * DAY).find(|minute| one.holds(*minute) && other.holds(*minute));
            assert_eq!(common_minute(&one, &other), found, "{one:?} and {other:?}");
        }
    }
}
