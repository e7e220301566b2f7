//! The board: who holds which role, permissions, rules and open duties, with fixed room for each, its limits,
//! its filler and the smallest board; what a call asks and what it answers.

pub const USERS: usize = 64;
pub const ROLES: usize = 32;
pub const PERMISSIONS: usize = 512;
pub const RULES: usize = 64;
pub const DUTIES: usize = 128;
pub const ACTIONS: u16 = 64;
pub const OBJECTS: u16 = 256;
pub const LAST_SERIAL: u32 = u32::MAX;

/// What is to be done.
#[derive(Clone, Copy, PartialEq, Eq)]
pub enum What {
    Grant { target: u16, role: u16 },
    Revoke { target: u16, role: u16 },
    Use { action: u16, object: u16 },
}

/// Who is to do what, from start to end.
#[derive(Clone, Copy, PartialEq, Eq)]
pub struct Duty {
    pub serial: u32,
    pub doer: u16,
    pub what: What,
    pub start: u32,
    pub end: u32,
}

/// A use of the action on the object needs the role.
#[derive(Clone, Copy, PartialEq, Eq)]
pub struct Permission {
    pub role: u16,
    pub action: u16,
    pub object: u16,
}

/// Who holds the actor role may assign (kind 0) or revoke (kind 1) the role for a target that holds every
/// wanted role and no barred one.
#[derive(Clone, Copy, PartialEq, Eq)]
pub struct Rule {
    pub kind: u16,
    pub actor: u16,
    pub role: u16,
    pub wanted: u32,
    pub barred: u32,
}

/// How many there are of each. Room beyond a count holds the filler.
#[derive(Clone, Copy)]
pub struct Counts {
    pub users: u16,
    pub roles: u16,
    pub permissions: u16,
    pub rules: u16,
    pub duties: u16,
}

#[derive(Clone, Copy)]
pub struct Board {
    pub counts: Counts,
    pub clock: u32,
    pub next: u32,
    pub holdings: [u32; USERS],
    pub permissions: [Permission; PERMISSIONS],
    pub rules: [Rule; RULES],
    pub duties: [Duty; DUTIES],
}

impl What {
    /// What an action, a first and a second say is to be done.
    pub(crate) fn of(action: u16, first: u16, second: u16) -> What {
        match action {
            0 => What::Grant {
                target: first,
                role: second,
            },
            1 => What::Revoke {
                target: first,
                role: second,
            },
            _ => What::Use {
                action,
                object: first,
            },
        }
    }
}

impl Duty {
    pub const FILLER: Duty = Duty {
        serial: 0,
        doer: 0,
        what: What::Grant { target: 0, role: 0 },
        start: 0,
        end: 0,
    };

    /// Whether this duty's end is less than the other's start.
    pub(crate) fn wholly_before(&self, other: &Duty) -> bool {
        self.end < other.start
    }
}

impl Permission {
    pub const FILLER: Permission = Permission {
        role: 0,
        action: 0,
        object: 0,
    };

    /// The number that permissions rise by: action, then object.
    pub(crate) fn key(&self) -> u32 {
        permission_key(self.action, self.object)
    }
}

pub(crate) fn permission_key(action: u16, object: u16) -> u32 {
    u32::from(action) << 16 | u32::from(object)
}

impl Rule {
    pub const FILLER: Rule = Rule {
        kind: 0,
        actor: 0,
        role: 0,
        wanted: 0,
        barred: 0,
    };

    /// The number that rules rise by: kind, then role.
    pub(crate) fn key(&self) -> u32 {
        rule_key(self.kind, self.role)
    }
}

pub(crate) fn rule_key(kind: u16, role: u16) -> u32 {
    u32::from(kind) << 16 | u32::from(role)
}

impl Board {
    /// One user with no role, one role, clock 0, next serial 1, nothing else.
    pub const SMALLEST: Board = Board {
        counts: Counts {
            users: 1,
            roles: 1,
            permissions: 0,
            rules: 0,
            duties: 0,
        },
        clock: 0,
        next: 1,
        holdings: [0; USERS],
        permissions: [Permission::FILLER; PERMISSIONS],
        rules: [Rule::FILLER; RULES],
        duties: [Duty::FILLER; DUTIES],
    };

    /// The permissions, of a board whose counts fit. So with the rules and the open duties.
    pub(crate) fn permissions(&self) -> &[Permission] {
        &self.permissions[..usize::from(self.counts.permissions)]
    }

    pub(crate) fn rules(&self) -> &[Rule] {
        &self.rules[..usize::from(self.counts.rules)]
    }

    pub(crate) fn duties(&self) -> &[Duty] {
        &self.duties[..usize::from(self.counts.duties)]
    }
}

/// Admit: a duty to be added.
pub struct RequestAdmit {
    pub doer: u16,
    pub action: u16,
    pub first: u16,
    pub second: u16,
    pub start: u32,
    pub end: u32,
    pub clock: u32,
}

/// Act: something to be done now.
pub struct RequestAct {
    pub doer: u16,
    pub action: u16,
    pub first: u16,
    pub second: u16,
    pub clock: u32,
}

/// Do or withdraw: an open duty.
pub struct AskDuty {
    pub serial: u32,
    pub clock: u32,
}

/// The answer numbers.
pub mod number {
    pub const DONE: u8 = 0;
    pub const SHORT: u8 = 1;
    pub const VERSION: u8 = 2;
    pub const COUNT: u8 = 3;
    pub const LAYOUT: u8 = 4;
    pub const FIELD: u8 = 5;
    pub const NOT_ABOVE: u8 = 6;
    pub const WINDOW: u8 = 7;
    pub const RED: u8 = 8;
    pub const LIST: u8 = 9;
    pub const CLOCK: u8 = 10;
    pub const REQUEST: u8 = 11;
    pub const NOT_OPEN: u8 = 12;
    pub const OUTSIDE: u8 = 13;
    pub const HELD_BACK: u8 = 14;
    pub const NOT_PERMITTED: u8 = 15;
    pub const FULL: u8 = 16;
    pub const SPENT: u8 = 17;
    pub const LONG: u8 = 18;
    pub const BROKEN: u8 = 19;
    pub const OVER: u8 = 21;
}

/// What a call answers: its number, the serial of a duty that was admitted (else 0), and the length of the
/// failing order at the start of the lent list (0 where there is none).
pub struct Answer {
    pub number: u8,
    pub serial: u32,
    pub length: usize,
}

impl Answer {
    pub fn plain(number: u8) -> Answer {
        Answer {
            number,
            serial: 0,
            length: 0,
        }
    }

    pub(crate) fn done(serial: u32) -> Answer {
        Answer {
            number: number::DONE,
            serial,
            length: 0,
        }
    }

    pub(crate) fn red(length: usize) -> Answer {
        Answer {
            number: number::RED,
            serial: 0,
            length,
        }
    }
}
