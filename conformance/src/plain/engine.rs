//! The calls: refusals in the order of the scope's table, then the rule, then the record's place and the counts. Each but set up and the
//! moves is for tables of one form, with records of `R` octets.

use super::form::{Form, NARROW, WIDE};
use super::frame::{self, Body, Parts, COMMIT, CONFIRM, SUCCESS, VALUE};
use super::octets::{individual, pack, put16, usable, Address};
use super::peer::{Peer, State};
use super::rules::{self, Record, Step, Turn, LINK_COUNTER};
use super::table::{self, peer_at, slots, Header, Settings, Standing, GOOD_AT, HEADER};

/// "Causes and numbers, in order of test", but for the two of the moves, which are tested after 2 and before 1.
#[derive(Clone, Copy, Debug, PartialEq)]
pub enum Refusal {
    Settings = 1,
    Table = 2,
    Address = 3,
    Fresh = 4,
    Expected = 5,
    Verified = 6,
    Body = 7,
    RunInBeing = 8,
    NoFreeSlot = 9,
    NoRecord = 10,
    Buffer = 11,
    Slots = 15,
    Group = 16,
}

/// What a call answers: a step about an address, or none due.
pub enum Answer {
    Step(Step, Address),
    NoneDue,
}

/// The expected token's octets.
const EXPECTED: usize = 32;

/// "Set up makes this form", the wide one: 1.
pub fn initialize(table: &mut [u8], own: &Address, settings: &[u8; 16]) -> Result<Answer, Refusal> {
    let slots = table::slots_for::<WIDE>(table.len()).ok_or(Refusal::Settings)?;
    let settings = Settings::read(settings).ok_or(Refusal::Settings)?;
    if !individual(pack(own)) {
        return Err(Refusal::Settings);
    }
    table::initialize::<WIDE>(table, slots, own, &settings);
    Ok(Answer::Step(Step::default(), *own))
}

/// "Start": 2, 3, 4, 8, 9.
pub fn initiate<const R: usize>(table: &mut [u8], address: &Address, now: u32, fresh: &[u8]) -> Result<Answer, Refusal> {
    let header = admit::<R>(table, address)?;
    if !header.groups.fresh_right::<R>(fresh) {
        return Err(Refusal::Fresh);
    }
    let slot = table::find::<R>(table, pack(address));
    if slot.is_some_and(|slot| Peer(&slots::<R>(table)[slot]).has_run()) {
        return Err(Refusal::RunInBeing);
    }
    let slot = slot.or_else(|| table::last_free::<R>(table)).ok_or(Refusal::NoFreeSlot)?;
    let turn = turn(&header, address, now, fresh);
    let step = at_slot::<R, _>(table, slot, address, |peer| rules::initiate(peer, &turn));
    Ok(Answer::Step(step, *address))
}

/// "Kill (frees the record)": 2, 3, 10.
pub fn kill<const R: usize>(table: &mut [u8], address: &Address) -> Result<Answer, Refusal> {
    admit::<R>(table, address)?;
    let slot = table::find::<R>(table, pack(address)).ok_or(Refusal::NoRecord)?;
    at_slot::<R, _>(table, slot, address, |peer| {
        peer.end_run();
        peer.end_link();
    });
    Ok(Answer::Step(Step::default(), *address))
}

/// "Frame received": 2, 3, 4, 5, 6, 7, 9.
pub fn receive<const R: usize>(
    table: &mut [u8],
    address: &Address,
    now: u32,
    frame: &[u8],
    fresh: &[u8],
    expected: &[u8],
    verified: u8,
) -> Result<Answer, Refusal> {
    let header = admit::<R>(table, address)?;
    if !header.groups.fresh_right::<R>(fresh) {
        return Err(Refusal::Fresh);
    }
    if expected.len() != EXPECTED {
        return Err(Refusal::Expected);
    }
    if verified > 1 {
        return Err(Refusal::Verified);
    }
    let body = frame::read(frame, &header.groups).ok_or(Refusal::Body)?;
    let turn = Turn { expected, verified: verified == 1, ..turn(&header, address, now, fresh) };
    let slot = table::find::<R>(table, pack(address)).or_else(|| table::last_free::<R>(table));
    let step = match slot {
        Some(slot) => at_slot::<R, _>(table, slot, address, |peer| rules::receive(Some(peer), &turn, &body))?,
        None => rules::receive::<R>(None, &turn, &body)?,
    };
    Ok(Answer::Step(step, *address))
}

/// "The clock call serves the due record with the lowest slot number, t0 before t1, or says none is due": 2.
pub fn expire<const R: usize>(table: &mut [u8], now: u32) -> Result<Answer, Refusal> {
    let header = table::sound::<R>(table).ok_or(Refusal::Table)?;
    let t0_due = |peer: &Peer<&[u8; R]>| peer.has_run() && rules::due(now, peer.t0());
    let t1_due = |peer: &Peer<&[u8; R]>| peer.has_link() && rules::due(now, peer.t1());
    let Some(slot) = slots::<R>(table).iter().position(|octets| t0_due(&Peer(octets)) || t1_due(&Peer(octets))) else {
        return Ok(Answer::NoneDue);
    };
    let peer = Peer(&slots::<R>(table)[slot]);
    let (address, t0) = (*peer.address(), t0_due(&peer));
    let turn = turn(&header, &address, now, &[]);
    let step = at_slot::<R, _>(table, slot, &address, |peer| if t0 { rules::expire_t0(peer, &turn) } else { rules::expire_t1(peer) });
    Ok(Answer::Step(step, address))
}

/// The writer, from a frame's parts: 2, 7, 11.
pub fn write_parts<const R: usize>(table: &[u8], parts: &Parts, out: &mut [u8]) -> Result<u32, Refusal> {
    let header = table::sound::<R>(table).ok_or(Refusal::Table)?;
    if !parts.right(&header.groups) {
        return Err(Refusal::Body);
    }
    parts.write(out).map(|length| length as u32).ok_or(Refusal::Buffer)
}

/// The writer, from an address and which of its record's frames is wanted: 2, 3, 7, 11.
pub fn write_record<const R: usize>(table: &[u8], address: &Address, sequence: u16, value: &[u8], out: &mut [u8]) -> Result<u32, Refusal> {
    admit::<R>(table, address)?;
    let slot = table::find::<R>(table, pack(address)).ok_or(Refusal::Body)?;
    let peer = Peer(&slots::<R>(table)[slot]);
    let parts = match sequence {
        // "the run's Commit"
        COMMIT if peer.has_run() => {
            Parts { sequence, status: SUCCESS, group: peer.group(), counter: 0, token: peer.token(), rest: peer.own_commit() }
        }
        // "the Confirm, whose counter is Sc for a run in Confirmed and 65,535 for a link with no run"
        CONFIRM if peer.state() != State::Committed && value.len() == VALUE => {
            let counter = if peer.has_run() { peer.sc() } else { LINK_COUNTER };
            Parts { sequence, status: SUCCESS, group: 0, counter, token: &[], rest: value }
        }
        _ => return Err(Refusal::Body),
    };
    parts.write(out).map(|length| length as u32).ok_or(Refusal::Buffer)
}

/// The reader: 2, 7.
pub fn read<'a, const R: usize>(table: &[u8], frame: &'a [u8]) -> Result<Body<'a>, Refusal> {
    let header = table::sound::<R>(table).ok_or(Refusal::Table)?;
    frame::read(frame, &header.groups).ok_or(Refusal::Body)
}

/// The time until the earliest deadline, t0 of a record with a run or t1 of one with a link: 0 if one is due, all ones if there is none: 2.
pub fn next_deadline<const R: usize>(table: &[u8], now: u32) -> Result<u32, Refusal> {
    table::sound::<R>(table).ok_or(Refusal::Table)?;
    let t0s = slots::<R>(table).iter().map(Peer).filter(|peer| peer.has_run()).map(|peer| peer.t0());
    let t1s = slots::<R>(table).iter().map(Peer).filter(|peer| peer.has_link()).map(|peer| peer.t1());
    let until = |deadline: u32| if rules::due(now, deadline) { 0 } else { deadline.wrapping_sub(now) };
    Ok(t0s.chain(t1s).map(until).min().unwrap_or(u32::MAX))
}

/// Where the record of an address lies, 0 if it has none: 2, 3.
pub fn find<const R: usize>(table: &[u8], address: &Address) -> Result<u32, Refusal> {
    admit::<R>(table, address)?;
    Ok(table::find::<R>(table, pack(address)).map_or(0, |slot| (HEADER + R * slot) as u32))
}

/// "The panel's question reads the 32 header octets alone": 2.
pub fn good_links<const R: usize>(header: &[u8]) -> Result<u32, Refusal> {
    let head = header.try_into().map_err(|_| Refusal::Table)?;
    table::good_links::<R>(head).map(u32::from).ok_or(Refusal::Table)
}

/// "A call fills the field, right or wrong before, in a table otherwise sound; any other gets 2."
pub fn fill<const R: usize>(table: &mut [u8]) -> Result<(), Refusal> {
    let (_, good) = table::otherwise_sound::<R>(table).ok_or(Refusal::Table)?;
    put16(table, GOOD_AT, good);
    Ok(())
}

/// "One call moves a table of 864-octet records to the 1,080 form": 2, "which a source of the other form also gets"; "15, forward with more
/// than 60 slots"; "a target not of the new length is 1, tested last".
pub fn widen(source: &[u8], target: &mut [u8]) -> Result<(), Refusal> {
    table::sound::<NARROW>(source).ok_or(Refusal::Table)?;
    if slots::<NARROW>(source).len() > Form::<WIDE>::SLOTS {
        return Err(Refusal::Slots);
    }
    table::move_to::<NARROW, WIDE>(source, target).ok_or(Refusal::Settings)
}

/// "Another moves it back": 2; "16, back with group 21 listed"; 1.
pub fn narrow(source: &[u8], target: &mut [u8]) -> Result<(), Refusal> {
    let header = table::sound::<WIDE>(source).ok_or(Refusal::Table)?;
    if header.groups.lists(21) {
        return Err(Refusal::Group);
    }
    table::move_to::<WIDE, NARROW>(source, target).ok_or(Refusal::Settings)
}

/// The first two causes of a call about an address: 2, 3.
fn admit<const R: usize>(table: &[u8], address: &Address) -> Result<Header, Refusal> {
    let header = table::sound::<R>(table).ok_or(Refusal::Table)?;
    if usable(pack(address), header.own) {
        Ok(header)
    } else {
        Err(Refusal::Address)
    }
}

fn turn<'a>(header: &Header, address: &Address, now: u32, fresh: &'a [u8]) -> Turn<'a> {
    Turn {
        now,
        pace: header.pace,
        groups: header.groups,
        higher: header.own > pack(address),
        crowded: header.open >= header.threshold,
        fresh,
        expected: &[],
        verified: false,
    }
}

/// Lets `rule` change the record in a slot, then seats or frees the record and keeps the counts.
fn at_slot<const R: usize, T>(table: &mut [u8], slot: usize, address: &Address, rule: impl FnOnce(&mut Record<R>) -> T) -> T {
    let mut peer = peer_at(table, slot);
    let before = Standing { in_use: peer.in_use(), open: peer.has_run(), good: peer.has_good_link() };
    let result = rule(&mut peer);
    let after = Standing { in_use: peer.has_run() || peer.has_link(), open: peer.has_run(), good: peer.has_good_link() };
    if after != before {
        match after.in_use {
            true => peer.seat(address),
            // "A record with neither is freed."
            false => peer.free(),
        }
        table::recount(table, before, after);
    }
    result
}
