//! One act: what it asks, whether that is met, what it changes.

use crate::board::*;

/// What is asked: the doer holds the actor role, the target every wanted role and no barred one. All three
/// are sets, the first of one role.
pub struct Asked {
    pub actor: u32,
    pub target: u16,
    pub wanted: u32,
    pub barred: u32,
}

fn asked_by_rule(b: &Board, kind: u16, target: u16, role: u16) -> Option<Asked> {
    let at = b
        .rules()
        .binary_search_by_key(&rule_key(kind, role), Rule::key)
        .ok()?;
    let rule = &b.rules[at];
    Some(Asked {
        actor: 1 << rule.actor,
        target,
        wanted: rule.wanted,
        barred: rule.barred,
    })
}

/// What the board's permissions and rules ask for this to be done; nothing where there is none for it.
pub fn asked_for(b: &Board, doer: u16, what: What) -> Option<Asked> {
    match what {
        What::Grant { target, role } => asked_by_rule(b, 0, target, role),
        What::Revoke { target, role } => asked_by_rule(b, 1, target, role),
        What::Use { action, object } => {
            let key = permission_key(action, object);
            let at = b.permissions().binary_search_by_key(&key, Permission::key).ok()?;
            Some(Asked {
                actor: 1 << b.permissions[at].role,
                target: doer,
                wanted: 0,
                barred: 0,
            })
        }
    }
}

/// Whether the doer may do this with these holdings.
pub fn permitted(b: &Board, holdings: &[u32; USERS], doer: u16, what: What) -> bool {
    asked_for(b, doer, what).is_some_and(|asked| {
        let theirs = holdings[usize::from(asked.target)];
        holdings[usize::from(doer)] & asked.actor != 0
            && theirs & asked.wanted == asked.wanted
            && theirs & asked.barred == 0
    })
}

/// Make the change of a grant or a revoke. A use changes nothing.
pub fn make_change(holdings: &mut [u32; USERS], what: What) {
    match what {
        What::Grant { target, role } => holdings[usize::from(target)] |= 1 << role,
        What::Revoke { target, role } => holdings[usize::from(target)] &= !(1 << role),
        What::Use { .. } => {}
    }
}
