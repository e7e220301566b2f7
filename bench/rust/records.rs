//! The tests of one record, which reading a file and the requests share, and the test of a whole board value
//! (answer 19).

use crate::board::*;

/// Whether every count and the next serial is in its range.
pub fn counts_fit(counts: &Counts, next: u32) -> bool {
    (1..=USERS).contains(&usize::from(counts.users))
        && (1..=ROLES).contains(&usize::from(counts.roles))
        && usize::from(counts.permissions) <= PERMISSIONS
        && usize::from(counts.rules) <= RULES
        && usize::from(counts.duties) <= DUTIES
        && next != 0
}

/// The bits that a set may have with this many roles, 1 to 32.
pub fn all_roles(roles: u16) -> u32 {
    u32::MAX >> (ROLES as u16 - roles)
}

fn use_fits(action: u16, object: u16) -> bool {
    (2..ACTIONS).contains(&action) && object < OBJECTS
}

pub fn permission_fits(p: &Permission, roles: u16) -> bool {
    p.role < roles && use_fits(p.action, p.object)
}

pub fn rule_fits(r: &Rule, roles: u16) -> bool {
    r.kind < 2 && r.actor < roles && r.role < roles && (r.wanted | r.barred) & !all_roles(roles) == 0
}

pub fn what_fits(what: What, counts: &Counts) -> bool {
    match what {
        What::Grant { target, role } | What::Revoke { target, role } => {
            target < counts.users && role < counts.roles
        }
        What::Use { action, object } => use_fits(action, object),
    }
}

/// Whether the second number of a use is 0.
pub fn second_fits(action: u16, second: u16) -> bool {
    action < 2 || second == 0
}

/// Whether the fields of a duty but its window are in range.
pub fn duty_fits(d: &Duty, counts: &Counts, next: u32) -> bool {
    0 < d.serial && d.serial < next && d.doer < counts.users && what_fits(d.what, counts)
}

fn holdings_good(b: &Board) -> bool {
    let (held, room) = b.holdings.split_at(usize::from(b.counts.users));
    held.iter().all(|set| set & !all_roles(b.counts.roles) == 0) && room.iter().all(|&set| set == 0)
}

fn permissions_good(b: &Board) -> bool {
    let (permissions, room) = b.permissions.split_at(usize::from(b.counts.permissions));
    let mut previous = None;
    permissions
        .iter()
        .all(|p| permission_fits(p, b.counts.roles) && previous.replace(p.key()) < Some(p.key()))
        && room.iter().all(|p| *p == Permission::FILLER)
}

fn rules_good(b: &Board) -> bool {
    let (rules, room) = b.rules.split_at(usize::from(b.counts.rules));
    let mut previous = None;
    rules
        .iter()
        .all(|r| rule_fits(r, b.counts.roles) && previous.replace(r.key()) < Some(r.key()))
        && room.iter().all(|r| *r == Rule::FILLER)
}

fn duties_good(b: &Board) -> bool {
    let (duties, room) = b.duties.split_at(usize::from(b.counts.duties));
    let mut previous = 0;
    duties.iter().all(|d| {
        let above = previous < d.serial;
        previous = d.serial;
        above && duty_fits(d, &b.counts, b.next) && d.start <= d.end
    }) && room.iter().all(|d| *d == Duty::FILLER)
}

/// Whether a board value keeps every rule of the board file and holds the filler beyond each count.
pub fn is_good(b: &Board) -> bool {
    counts_fit(&b.counts, b.next)
        && holdings_good(b)
        && permissions_good(b)
        && rules_good(b)
        && duties_good(b)
}
