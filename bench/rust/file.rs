//! Reading a board file into a board: its checks in the order of the rules.

use crate::board::*;
use crate::records::*;

const HEADER: usize = 40;
const HOLDING: usize = 4;
const PERMISSION: usize = 6;
const RULE: usize = 16;
const DUTY: usize = 20;

/// The longest file: every count at its limit.
pub const LONGEST: usize = HEADER + USERS * HOLDING + PERMISSIONS * PERMISSION + RULES * RULE + DUTIES * DUTY;

fn two(s: &[u8], at: usize) -> u16 {
    u16::from_le_bytes([s[at], s[at + 1]])
}

fn four(s: &[u8], at: usize) -> u32 {
    u32::from_le_bytes([s[at], s[at + 1], s[at + 2], s[at + 3]])
}

/// The bytes of the four parts.
struct Parts<'a> {
    holdings: &'a [u8],
    permissions: &'a [u8],
    rules: &'a [u8],
    duties: &'a [u8],
}

/// The header's counts, and the parts of the file: 1, 2, 3, 4, 18.
fn header(s: &[u8]) -> Result<(Counts, Parts<'_>), u8> {
    if s.len() < HEADER {
        return Err(number::SHORT);
    }
    if two(s, 0) != 1 {
        return Err(number::VERSION);
    }
    let counts = Counts {
        users: two(s, 2),
        roles: two(s, 4),
        permissions: two(s, 6),
        rules: two(s, 8),
        duties: two(s, 10),
    };
    if !counts_fit(&counts, four(s, 16)) {
        return Err(number::COUNT);
    }
    let permissions = HEADER + usize::from(counts.users) * HOLDING;
    let rules = permissions + usize::from(counts.permissions) * PERMISSION;
    let duties = rules + usize::from(counts.rules) * RULE;
    let total = duties + usize::from(counts.duties) * DUTY;
    let laid_out = [HEADER, permissions, rules, duties, total];
    let as_told = (0..5).all(|i| four(s, 20 + 4 * i) as usize == laid_out[i]);
    if !as_told || total != s.len() {
        return Err(number::LAYOUT);
    }
    if total > LONGEST {
        return Err(number::LONG);
    }
    let parts = Parts {
        holdings: &s[HEADER..permissions],
        permissions: &s[permissions..rules],
        rules: &s[rules..duties],
        duties: &s[duties..],
    };
    Ok((counts, parts))
}

fn read_holdings(b: &mut Board, part: &[u8]) -> Result<(), u8> {
    let roles = all_roles(b.counts.roles);
    let (held, room) = b.holdings.split_at_mut(usize::from(b.counts.users));
    for (set, record) in held.iter_mut().zip(part.chunks_exact(HOLDING)) {
        *set = four(record, 0);
        if *set & !roles != 0 {
            return Err(number::FIELD);
        }
    }
    room.fill(0);
    Ok(())
}

fn read_permissions(b: &mut Board, part: &[u8]) -> Result<(), u8> {
    let (permissions, room) = b.permissions.split_at_mut(usize::from(b.counts.permissions));
    let mut previous = None;
    for (place, record) in permissions.iter_mut().zip(part.chunks_exact(PERMISSION)) {
        let p = Permission {
            role: two(record, 0),
            action: two(record, 2),
            object: two(record, 4),
        };
        if !permission_fits(&p, b.counts.roles) {
            return Err(number::FIELD);
        }
        if previous >= Some(p.key()) {
            return Err(number::NOT_ABOVE);
        }
        previous = Some(p.key());
        *place = p;
    }
    room.fill(Permission::FILLER);
    Ok(())
}

fn read_rules(b: &mut Board, part: &[u8]) -> Result<(), u8> {
    let (rules, room) = b.rules.split_at_mut(usize::from(b.counts.rules));
    let mut previous = None;
    for (place, record) in rules.iter_mut().zip(part.chunks_exact(RULE)) {
        let r = Rule {
            kind: two(record, 0),
            actor: two(record, 2),
            role: two(record, 4),
            wanted: four(record, 8),
            barred: four(record, 12),
        };
        if !rule_fits(&r, b.counts.roles) || two(record, 6) != 0 {
            return Err(number::FIELD);
        }
        if previous >= Some(r.key()) {
            return Err(number::NOT_ABOVE);
        }
        previous = Some(r.key());
        *place = r;
    }
    room.fill(Rule::FILLER);
    Ok(())
}

fn read_duties(b: &mut Board, part: &[u8]) -> Result<(), u8> {
    let (duties, room) = b.duties.split_at_mut(usize::from(b.counts.duties));
    let mut previous = 0;
    for (place, record) in duties.iter_mut().zip(part.chunks_exact(DUTY)) {
        let (action, second) = (two(record, 6), two(record, 10));
        let d = Duty {
            serial: four(record, 0),
            doer: two(record, 4),
            what: What::of(action, two(record, 8), second),
            start: four(record, 12),
            end: four(record, 16),
        };
        if !duty_fits(&d, &b.counts, b.next) || !second_fits(action, second) {
            return Err(number::FIELD);
        }
        if d.start > d.end {
            return Err(number::WINDOW);
        }
        if d.serial <= previous {
            return Err(number::NOT_ABOVE);
        }
        previous = d.serial;
        *place = d;
    }
    room.fill(Duty::FILLER);
    Ok(())
}

/// Read a board file into the board, which is left half read where the file is refused.
pub fn read(b: &mut Board, s: &[u8]) -> Result<(), u8> {
    let (counts, parts) = header(s)?;
    b.counts = counts;
    b.clock = four(s, 12);
    b.next = four(s, 16);
    read_holdings(b, parts.holdings)?;
    read_permissions(b, parts.permissions)?;
    read_rules(b, parts.rules)?;
    read_duties(b, parts.duties)
}
