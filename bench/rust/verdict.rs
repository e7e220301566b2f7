//! The verdict on a good board: green, or a failing order. A board is red exactly if for some duty d there is
//! no permission or rule, or a need of d is wrong now and no duty wholly before d sets it right (a), or a
//! duty x that d is not wholly before sets it wrong, with no duty between the two that sets it right (b).

use crate::permitted::*;
use crate::board::*;

/// A duty that sets a holding: of which user, what it grants and revokes (one role in one of the sets), its
/// window, its place among the duties, and the earliest end of a duty that undoes it and that it is wholly
/// before (the last minute where there is none: nothing is wholly after that).
#[derive(Clone, Copy)]
struct Setter {
    user: u16,
    place: u16,
    grants: u32,
    revokes: u32,
    start: u32,
    end: u32,
    undone: u32,
}

impl Setter {
    const NONE: Setter = Setter {
        user: 0,
        place: 0,
        grants: 0,
        revokes: 0,
        start: 0,
        end: 0,
        undone: u32::MAX,
    };

    fn undoes(&self, other: &Setter) -> bool {
        self.user == other.user && self.grants & other.revokes | self.revokes & other.grants != 0
    }
}

/// The duties that set a holding, at the start of the room, and how many.
fn gather(duties: &[Duty]) -> ([Setter; DUTIES], usize) {
    let mut setters = [Setter::NONE; DUTIES];
    let mut count = 0;
    for (place, d) in duties.iter().enumerate() {
        let (user, grants, revokes) = match d.what {
            What::Grant { target, role } => (target, 1 << role, 0),
            What::Revoke { target, role } => (target, 0, 1 << role),
            What::Use { .. } => continue,
        };
        let place = place as u16;
        setters[count] = Setter {
            user,
            place,
            grants,
            revokes,
            start: d.start,
            end: d.end,
            undone: u32::MAX,
        };
        count += 1;
    }
    (setters, count)
}

/// The earliest end of a setter that undoes this one and that it is wholly before.
fn undone_at(setters: &[Setter], x: &Setter) -> u32 {
    let mut earliest = u32::MAX;
    for g in setters {
        if g.end < earliest && x.end < g.start && g.undoes(x) {
            earliest = g.end;
        }
    }
    earliest
}

/// The place of what makes the duty at this place fail: of a duty that spoils it (b), or its own (a).
fn spoiler_of(b: &Board, setters: &[Setter], place: usize, d: &Duty) -> Option<usize> {
    let Some(asked) = asked_for(b, d.doer, d.what) else {
        return Some(place);
    };
    let mut own = b.holdings[usize::from(d.doer)];
    let mut most = b.holdings[usize::from(asked.target)];
    let mut least = most;
    for x in setters {
        let (is_doer, is_target) = (x.user == d.doer, x.user == asked.target);
        if !is_doer && !is_target {
            continue;
        }
        if x.end < d.start {
            if is_doer {
                own |= x.grants;
            }
            if is_target {
                most |= x.grants;
                least &= !x.revokes;
            }
        }
        if x.start <= d.end && d.start <= x.undone {
            let spoils = is_doer && x.revokes & asked.actor != 0
                || is_target && x.revokes & asked.wanted | x.grants & asked.barred != 0;
            if spoils && usize::from(x.place) != place {
                return Some(usize::from(x.place));
            }
        }
    }
    let can_be_met =
        own & asked.actor != 0 && most & asked.wanted == asked.wanted && least & asked.barred == 0;
    if can_be_met {
        None
    } else {
        Some(place)
    }
}

/// The places of the first duty that can fail and of what spoils it.
fn trouble_of(b: &Board) -> Option<(usize, usize)> {
    let (mut room, count) = gather(b.duties());
    let setters = &mut room[..count];
    for i in 0..setters.len() {
        setters[i].undone = undone_at(setters, &setters[i]);
    }
    b.duties()
        .iter()
        .enumerate()
        .find_map(|(place, d)| spoiler_of(b, setters, place, d).map(|spoiler| (spoiler, place)))
}

/// A walk through duties: who holds what by now, and the serials written so far.
struct Walk<'a> {
    board: &'a Board,
    holdings: [u32; USERS],
    list: &'a mut [u32],
    length: usize,
}

impl Walk<'_> {
    /// Write the duty's serial and make its change; false where it is not permitted.
    fn step(&mut self, d: &Duty) -> bool {
        self.list[self.length] = d.serial;
        self.length += 1;
        let permitted = permitted(self.board, &self.holdings, d.doer, d.what);
        if permitted {
            make_change(&mut self.holdings, d.what);
        }
        permitted
    }
}

/// Do the trail of x and d: what must come early in order of start, x, what lies between the two, d; until a
/// duty is not permitted. The serials stand at the start of the list, and their number is answered.
fn write_order(b: &Board, x: &Duty, d: &Duty, list: &mut [u32]) -> usize {
    let mut pool = b.duties;
    let pool = &mut pool[..usize::from(b.counts.duties)];
    pool.sort_unstable_by_key(|y| (y.start, y.serial));
    let early =
        |y: &&Duty| (y.wholly_before(d) || y.wholly_before(x)) && !x.wholly_before(y) && y.serial != x.serial;
    let between = |y: &&Duty| x.wholly_before(y) && y.wholly_before(d);
    let mut walk = Walk {
        board: b,
        holdings: b.holdings,
        list,
        length: 0,
    };
    let _ = pool.iter().filter(early).all(|y| walk.step(y))
        && walk.step(x)
        && pool.iter().filter(between).all(|y| walk.step(y))
        && walk.step(d);
    walk.length
}

/// Judge a good board: nothing where it is green; else a failing order is written to the start of the list,
/// and its length answered.
pub fn judge(b: &Board, list: &mut [u32]) -> Option<usize> {
    let (spoiler, stuck) = trouble_of(b)?;
    Some(write_order(b, &b.duties[spoiler], &b.duties[stuck], list))
}
