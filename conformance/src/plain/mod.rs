//! An engine for the scope in plain Rust, written from it: what the archive is compared with and measured against.
//! It works on the lent octets where they stand.

pub mod engine;
pub mod form;
pub mod frame;
pub mod octets;
pub mod peer;
pub mod rules;
pub mod table;

use crate::interface::{Engine, ANSWER, PARTS, SETTINGS};
use engine::{Answer, Refusal};
use form::{NARROW, WIDE};
use frame::{Body, Parts, COMMIT, CONFIRM, CONFIRM_LEN, FRONT, GROUP_REFUSED, SUCCESS, TOKEN_REQUIRED};
use octets::{put16, put32, Address};

/// Makes a call in the form of its table, "told by its record size": 2 if no form has that size.
macro_rules! in_form {
    ($table:expr, $call:ident($($argument:expr),*)) => {
        match table::record_size($table) {
            Some(NARROW) => engine::$call::<NARROW>($table $(, $argument)*),
            Some(WIDE) => engine::$call::<WIDE>($table $(, $argument)*),
            _ => Err(Refusal::Table),
        }
    };
}

/// The functions of the C interface on slices.
pub struct Plain;

impl Engine for Plain {
    fn name(&self) -> &'static str {
        "plain"
    }

    fn initialize(&self, table: &mut [u8], own: &Address, settings: &[u8; SETTINGS], answer: &mut [u8; ANSWER]) -> u32 {
        tell(engine::initialize(table, own, settings), answer)
    }

    fn initiate(&self, table: &mut [u8], address: &Address, now: u32, fresh: &[u8], answer: &mut [u8; ANSWER]) -> u32 {
        tell(in_form!(table, initiate(address, now, fresh)), answer)
    }

    fn kill(&self, table: &mut [u8], address: &Address, answer: &mut [u8; ANSWER]) -> u32 {
        tell(in_form!(table, kill(address)), answer)
    }

    fn receive(
        &self,
        table: &mut [u8],
        address: &Address,
        now: u32,
        frame: &[u8],
        fresh: &[u8],
        expected: &[u8],
        verified: u8,
        answer: &mut [u8; ANSWER],
    ) -> u32 {
        tell(in_form!(table, receive(address, now, frame, fresh, expected, verified)), answer)
    }

    fn expire(&self, table: &mut [u8], now: u32, answer: &mut [u8; ANSWER]) -> u32 {
        tell(in_form!(table, expire(now)), answer)
    }

    fn write_parts(
        &self,
        table: &[u8],
        sequence: u16,
        status: u16,
        group: u16,
        counter: u16,
        token: &[u8],
        rest: &[u8],
        out: &mut [u8],
        written: &mut u32,
    ) -> u32 {
        let parts = Parts { sequence, status, group, counter, token, rest };
        tell_number(in_form!(table, write_parts(&parts, out)), written)
    }

    fn write_record(&self, table: &[u8], address: &Address, sequence: u16, value: &[u8], out: &mut [u8], written: &mut u32) -> u32 {
        tell_number(in_form!(table, write_record(address, sequence, value, out)), written)
    }

    fn read(&self, table: &[u8], frame: &[u8], parts: &mut [u8; PARTS]) -> u32 {
        match in_form!(table, read(frame)) {
            Ok(body) => {
                *parts = parts_of(&body);
                0
            }
            Err(refusal) => refusal as u32,
        }
    }

    fn next_deadline(&self, table: &[u8], now: u32, milliseconds: &mut u32) -> u32 {
        tell_number(in_form!(table, next_deadline(now)), milliseconds)
    }

    fn find(&self, table: &[u8], address: &Address, offset: &mut u32) -> u32 {
        tell_number(in_form!(table, find(address)), offset)
    }

    fn good_links(&self, header: &[u8], good: &mut u32) -> u32 {
        tell_number(in_form!(header, good_links()), good)
    }

    fn fill(&self, table: &mut [u8]) -> u32 {
        tell_done(in_form!(table, fill()))
    }

    fn widen(&self, source: &[u8], target: &mut [u8]) -> u32 {
        tell_done(engine::widen(source, target))
    }

    fn narrow(&self, source: &[u8], target: &mut [u8]) -> u32 {
        tell_done(engine::narrow(source, target))
    }
}

/// The number returned; a refusal leaves the answer as it was.
fn tell(result: Result<Answer, Refusal>, answer: &mut [u8; ANSWER]) -> u32 {
    match result {
        Ok(said) => {
            *answer = answer_of(&said);
            0
        }
        Err(refusal) => refusal as u32,
    }
}

fn tell_number(result: Result<u32, Refusal>, number: &mut u32) -> u32 {
    match result {
        Ok(said) => {
            *number = said;
            0
        }
        Err(refusal) => refusal as u32,
    }
}

fn tell_done(result: Result<(), Refusal>) -> u32 {
    result.map_or_else(|refusal| refusal as u32, |()| 0)
}

/// 0 none due; 1 event; 2-3 fresh group used; 4-9 address; 10 number of frames; 12-19 and 20-27 the frames.
fn answer_of(said: &Answer) -> [u8; ANSWER] {
    let mut answer = [0; ANSWER];
    match said {
        Answer::NoneDue => answer[0] = 1,
        Answer::Step(step, address) => {
            answer[1] = step.event as u8;
            put16(&mut answer, 2, step.fresh_group);
            answer[4..10].copy_from_slice(address);
            answer[10] = step.count;
            for (place, frame) in answer[12..].chunks_exact_mut(8).zip(&step.frames) {
                put16(place, 0, frame.sequence);
                put16(place, 2, frame.status);
                put16(place, 4, frame.group);
                put16(place, 6, frame.counter);
            }
        }
    }
    answer
}

/// 0-1 sequence; 2-3 status; 4-5 group; 6-7 counter; 8-11 and 12-15 offset and length of the token, or of what follows a status
/// 0 Confirm; 16-19 the offset of the scalar, or of a Confirm's value. What is not looked at is 0.
fn parts_of(body: &Body) -> [u8; PARTS] {
    let (sequence, status, group, counter, handed, last) = match *body {
        Body::Commit { group, token, .. } => (COMMIT, SUCCESS, group, 0, (FRONT, token.len()), FRONT + token.len()),
        Body::UnsupportedCommit { group } => (COMMIT, SUCCESS, group, 0, (0, 0), 0),
        Body::TokenRequest { group, token } => (COMMIT, TOKEN_REQUIRED, group, 0, (FRONT, token.len()), 0),
        Body::GroupRefusal { group } => (COMMIT, GROUP_REFUSED, group, 0, (0, 0), 0),
        Body::FailedCommit { status } => (COMMIT, status, 0, 0, (0, 0), 0),
        Body::Confirm { counter, elements } => (CONFIRM, SUCCESS, 0, counter, (CONFIRM_LEN, elements.len()), FRONT),
        Body::FailedConfirm { status } => (CONFIRM, status, 0, 0, (0, 0), 0),
    };
    let mut parts = [0; PARTS];
    put16(&mut parts, 0, sequence);
    put16(&mut parts, 2, status);
    put16(&mut parts, 4, group);
    put16(&mut parts, 6, counter);
    put32(&mut parts, 8, handed.0 as u32);
    put32(&mut parts, 12, handed.1 as u32);
    put32(&mut parts, 16, last as u32);
    parts
}
