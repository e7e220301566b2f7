//! Makes one call many times, for each job on standard input; calls.txt does the same with the proved
//! library, and has the layout of a job.

use rust::board::*;
use rust::{calls, read, LONGEST};
use std::hint::black_box;
use std::io::{Read, Write};

const FILE_AT: usize = 40;
const ROOM: usize = FILE_AT + LONGEST + 64;
const LENT: usize = DUTIES + 2;
const MODULUS: u64 = 4_294_967_291;

fn two(s: &[u8], at: usize) -> u16 {
    u16::from_le_bytes([s[at], s[at + 1]])
}

fn four(s: &[u8], at: usize) -> u32 {
    u32::from_le_bytes([s[at], s[at + 1], s[at + 2], s[at + 3]])
}

/// Set one number of the board, for boards that break a rule.
fn poke(b: &mut Board, which: u8, place: usize, value: u32) {
    match which {
        1 => b.counts.users = value as u16,
        2 => b.counts.roles = value as u16,
        3 => b.counts.permissions = value as u16,
        4 => b.counts.rules = value as u16,
        5 => b.counts.duties = value as u16,
        6 => b.next = value,
        7 => b.holdings[place % USERS] = value,
        8 => b.permissions[place % PERMISSIONS].object = value as u16,
        9 => b.rules[place % RULES].wanted = value,
        10 => b.duties[place % DUTIES].serial = value,
        11 => b.duties[place % DUTIES].end = value,
        12 => {
            b.duties[place % DUTIES].what = What::Use {
                action: value as u16,
                object: 0,
            }
        }
        _ => {}
    }
}

fn numbers_of(what: What) -> (u16, u16, u16) {
    match what {
        What::Grant { target, role } => (0, target, role),
        What::Revoke { target, role } => (1, target, role),
        What::Use { action, object } => (action, object, 0),
    }
}

/// A checksum over the whole board.
fn sum_of(b: &Board) -> u64 {
    let mut sum = 1;
    let mut add = |x: u32| sum = (sum * 31 + u64::from(x)) % MODULUS;
    let c = b.counts;
    for count in [c.users, c.roles, c.permissions, c.rules, c.duties] {
        add(count.into());
    }
    add(b.clock);
    add(b.next);
    for set in b.holdings {
        add(set);
    }
    for p in &b.permissions {
        add(p.role.into());
        add(p.action.into());
        add(p.object.into());
    }
    for r in &b.rules {
        add(r.kind.into());
        add(r.actor.into());
        add(r.role.into());
        add(r.wanted);
        add(r.barred);
    }
    for d in &b.duties {
        let (action, first, second) = numbers_of(d.what);
        add(d.serial);
        add(d.doer.into());
        add(action.into());
        add(first.into());
        add(second.into());
        add(d.start);
        add(d.end);
    }
    sum
}

fn mark(place: usize) -> u32 {
    1_000_000 + place as u32
}

/// Make the call of a job so many times, and the line of the last.
fn run(job: &[u8], line: &mut Vec<u8>) {
    let mut bytes = [0; ROOM];
    bytes[..job.len()].copy_from_slice(job);
    let length = job.len();
    let (kind, step) = (bytes[0], bytes[1]);
    let mut list: [u32; LENT] = std::array::from_fn(mark);
    let lent = DUTIES - usize::from(bytes[3]);
    let times = four(&bytes, 4);
    let mut saved = Board::SMALLEST;
    if read(&mut saved, &bytes[FILE_AT..length]).is_err() {
        saved = Board::SMALLEST;
    }
    poke(&mut saved, bytes[2], two(&bytes, 32).into(), four(&bytes, 36));
    let (doer, action, first, second) = (two(&bytes, 8), two(&bytes, 10), two(&bytes, 12), two(&bytes, 14));
    let (start, end, serial) = (four(&bytes, 16), four(&bytes, 20), four(&bytes, 28));
    let mut board = saved;
    let mut answer = Answer::plain(0);
    for turn in 0..times {
        let change = step * (turn % 2) as u8;
        let clock = four(&bytes, 24) ^ u32::from(change);
        let list = &mut black_box(&mut list)[..lent];
        if kind >= 2 {
            board = *black_box(&saved);
        }
        let board = black_box(&mut board);
        answer = match kind {
            0 => {
                bytes[FILE_AT + 12] ^= change;
                calls::open(board, black_box(&bytes[FILE_AT..length]), list)
            }
            1 => {
                board.clock ^= u32::from(change);
                calls::check(board, list)
            }
            2 => calls::admit(
                board,
                list,
                &RequestAdmit {
                    doer,
                    action,
                    first,
                    second,
                    start,
                    end,
                    clock,
                },
            ),
            3 => calls::act(
                board,
                list,
                &RequestAct {
                    doer,
                    action,
                    first,
                    second,
                    clock,
                },
            ),
            4 => calls::do_duty(board, &AskDuty { serial, clock }),
            5 => calls::withdraw(board, list, &AskDuty { serial, clock }),
            _ => Answer::plain(0),
        };
    }
    let board = black_box(&board);
    let _ = write!(line, "{} {} {}", answer.number, answer.serial, answer.length);
    for serial in &list[..answer.length] {
        let _ = write!(line, " {serial}");
    }
    let kept = (answer.length..LENT).all(|i| list[i] == mark(i));
    let _ = writeln!(
        line,
        " sum {} {}",
        sum_of(board),
        if kept { "kept" } else { "changed" }
    );
}

fn main() {
    let mut input = Vec::new();
    std::io::stdin().read_to_end(&mut input).expect("standard input");
    let mut lines = Vec::new();
    let mut rest = &input[..];
    while rest.len() >= 4 {
        let length = four(rest, 0) as usize;
        run(&rest[4..4 + length], &mut lines);
        rest = &rest[4 + length..];
    }
    std::io::stdout().write_all(&lines).expect("standard output");
}
