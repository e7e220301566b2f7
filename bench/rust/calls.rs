//! The six calls. Each has its checks in the order of the rules; a refused one leaves the board as it was.

use crate::permitted::*;
use crate::board::*;
use crate::file;
use crate::records::*;
use crate::verdict::judge;

/// Whether doer, action, first and second are in their ranges, and the second of a use is 0.
fn doing_fits(counts: &Counts, doer: u16, action: u16, first: u16, second: u16) -> bool {
    doer < counts.users && what_fits(What::of(action, first, second), counts) && second_fits(action, second)
}

/// What admit, act and withdraw try first: 19, 9, 10.
fn refused_first(b: &Board, list: &[u32], clock: u32) -> Option<u8> {
    if !is_good(b) {
        return Some(number::BROKEN);
    }
    if list.len() < DUTIES {
        return Some(number::LIST);
    }
    (clock < b.clock).then_some(number::CLOCK)
}

/// The place of the open duty with the serial.
fn place_of(b: &Board, serial: u32) -> Option<usize> {
    b.duties().binary_search_by_key(&serial, |d| d.serial).ok()
}

/// Take the duty at this place out, close up the pool and fill the freed room.
fn take_out(b: &mut Board, place: usize) -> Duty {
    let taken = b.duties[place];
    let count = usize::from(b.counts.duties);
    b.duties.copy_within(place + 1..count, place);
    b.duties[count - 1] = Duty::FILLER;
    b.counts.duties -= 1;
    taken
}

/// Put a duty that was taken out back at its place.
fn put_back(b: &mut Board, place: usize, duty: Duty) {
    let count = usize::from(b.counts.duties);
    b.duties.copy_within(place..count, place + 1);
    b.duties[place] = duty;
    b.counts.duties += 1;
}

/// Open a board file into the board: 9, 1, 2, 3, 4, 18, then records (5, 7, 6), then 8.
pub fn open(b: &mut Board, s: &[u8], list: &mut [u32]) -> Answer {
    let answer = opened(b, s, list);
    if answer.number != number::DONE {
        *b = Board::SMALLEST;
    }
    answer
}

fn opened(b: &mut Board, s: &[u8], list: &mut [u32]) -> Answer {
    if list.len() < DUTIES {
        return Answer::plain(number::LIST);
    }
    if let Err(number) = file::read(b, s) {
        return Answer::plain(number);
    }
    judge(b, list).map_or(Answer::plain(number::DONE), Answer::red)
}

/// Check: 19, 9, 8.
pub fn check(b: &Board, list: &mut [u32]) -> Answer {
    if !is_good(b) {
        return Answer::plain(number::BROKEN);
    }
    if list.len() < DUTIES {
        return Answer::plain(number::LIST);
    }
    judge(b, list).map_or(Answer::plain(number::DONE), Answer::red)
}

/// Admit: 19, 9, 10, 11, 7, 21, 16, 17, 8.
pub fn admit(b: &mut Board, list: &mut [u32], q: &RequestAdmit) -> Answer {
    if let Some(number) = refused_first(b, list, q.clock) {
        return Answer::plain(number);
    }
    if !doing_fits(&b.counts, q.doer, q.action, q.first, q.second) {
        return Answer::plain(number::REQUEST);
    }
    if q.start > q.end {
        return Answer::plain(number::WINDOW);
    }
    if q.end < q.clock {
        return Answer::plain(number::OVER);
    }
    let count = usize::from(b.counts.duties);
    if count == DUTIES {
        return Answer::plain(number::FULL);
    }
    if b.next == LAST_SERIAL {
        return Answer::plain(number::SPENT);
    }
    let serial = b.next;
    let what = What::of(q.action, q.first, q.second);
    b.duties[count] = Duty {
        serial,
        doer: q.doer,
        what,
        start: q.start,
        end: q.end,
    };
    b.counts.duties += 1;
    if let Some(length) = judge(b, list) {
        take_out(b, count);
        return Answer::red(length);
    }
    b.next += 1;
    b.clock = q.clock;
    Answer::done(serial)
}

/// Act: 19, 9, 10, 11, 15, 8.
pub fn act(b: &mut Board, list: &mut [u32], q: &RequestAct) -> Answer {
    if let Some(number) = refused_first(b, list, q.clock) {
        return Answer::plain(number);
    }
    if !doing_fits(&b.counts, q.doer, q.action, q.first, q.second) {
        return Answer::plain(number::REQUEST);
    }
    let what = What::of(q.action, q.first, q.second);
    if !permitted(b, &b.holdings, q.doer, what) {
        return Answer::plain(number::NOT_PERMITTED);
    }
    let holdings = b.holdings;
    make_change(&mut b.holdings, what);
    if let Some(length) = judge(b, list) {
        b.holdings = holdings;
        return Answer::red(length);
    }
    b.clock = q.clock;
    Answer::done(0)
}

/// Do: 19, 10, 12, 13, 14, 15.
pub fn do_duty(b: &mut Board, q: &AskDuty) -> Answer {
    if !is_good(b) {
        return Answer::plain(number::BROKEN);
    }
    if q.clock < b.clock {
        return Answer::plain(number::CLOCK);
    }
    let Some(place) = place_of(b, q.serial) else {
        return Answer::plain(number::NOT_OPEN);
    };
    let d = &b.duties[place];
    if !(d.start..=d.end).contains(&q.clock) {
        return Answer::plain(number::OUTSIDE);
    }
    if b.duties().iter().any(|y| y.wholly_before(d)) {
        return Answer::plain(number::HELD_BACK);
    }
    if !permitted(b, &b.holdings, d.doer, d.what) {
        return Answer::plain(number::NOT_PERMITTED);
    }
    let done = take_out(b, place);
    make_change(&mut b.holdings, done.what);
    b.clock = q.clock;
    Answer::done(0)
}

/// Withdraw: 19, 9, 10, 12, 8.
pub fn withdraw(b: &mut Board, list: &mut [u32], q: &AskDuty) -> Answer {
    if let Some(number) = refused_first(b, list, q.clock) {
        return Answer::plain(number);
    }
    let Some(place) = place_of(b, q.serial) else {
        return Answer::plain(number::NOT_OPEN);
    };
    let taken = take_out(b, place);
    if let Some(length) = judge(b, list) {
        put_back(b, place, taken);
        return Answer::red(length);
    }
    b.clock = q.clock;
    Answer::done(0)
}
