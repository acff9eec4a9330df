//! The lines of a trace, read and written. traces/README.md describes them.

use std::str::FromStr;

use crate::interface::{Call, Lent};

/// What a recorded call returns and leaves. A move leaves its source as it was, and its target is among what was lent.
pub struct Expected {
    pub number: u32,
    pub lent: Lent,
    pub table: Vec<u8>,
}

/// The call on a line, given as its words.
pub fn read_call(words: &[&str]) -> Result<Call, String> {
    Ok(match *words {
        ["initialize", own, settings] => Call::Initialize { own: array(own)?, settings: array(settings)? },
        ["initiate", address, now, fresh] => Call::Initiate { address: array(address)?, now: number(now)?, fresh: octets(fresh)? },
        ["kill", address] => Call::Kill { address: array(address)? },
        ["receive", address, now, frame, fresh, expected, verified] => Call::Receive {
            address: array(address)?,
            now: number(now)?,
            frame: octets(frame)?,
            fresh: octets(fresh)?,
            expected: octets(expected)?,
            verified: number(verified)?,
        },
        ["expire", now] => Call::Expire { now: number(now)? },
        ["write_parts", sequence, status, group, counter, token, rest, room] => Call::WriteParts {
            sequence: number(sequence)?,
            status: number(status)?,
            group: number(group)?,
            counter: number(counter)?,
            token: octets(token)?,
            rest: octets(rest)?,
            room: number(room)?,
        },
        ["write_record", address, sequence, value, room] => {
            Call::WriteRecord { address: array(address)?, sequence: number(sequence)?, value: octets(value)?, room: number(room)? }
        }
        ["read", frame] => Call::Read { frame: octets(frame)? },
        ["next_deadline", now] => Call::NextDeadline { now: number(now)? },
        ["find", address] => Call::Find { address: array(address)? },
        ["good_links", header] => Call::GoodLinks { header: octets(header)? },
        ["fill"] => Call::Fill,
        ["widen", length, octet] => Call::Widen { length: number(length)?, octet: one_octet(octet)? },
        ["narrow", length, octet] => Call::Narrow { length: number(length)?, octet: one_octet(octet)? },
        _ => return Err(format!("not an op of this format: {}", shorten(&words.join(" ")))),
    })
}

/// The line of a call.
pub fn call_line(call: &Call) -> String {
    match call {
        Call::Initialize { own, settings } => format!("initialize {} {}", hex(own), hex(settings)),
        Call::Initiate { address, now, fresh } => format!("initiate {} {now} {}", hex(address), hex(fresh)),
        Call::Kill { address } => format!("kill {}", hex(address)),
        Call::Receive { address, now, frame, fresh, expected, verified } => {
            format!("receive {} {now} {} {} {} {verified}", hex(address), hex(frame), hex(fresh), hex(expected))
        }
        Call::Expire { now } => format!("expire {now}"),
        Call::WriteParts { sequence, status, group, counter, token, rest, room } => {
            format!("write_parts {sequence} {status} {group} {counter} {} {} {room}", hex(token), hex(rest))
        }
        Call::WriteRecord { address, sequence, value, room } => format!("write_record {} {sequence} {} {room}", hex(address), hex(value)),
        Call::Read { frame } => format!("read {}", hex(frame)),
        Call::NextDeadline { now } => format!("next_deadline {now}"),
        Call::Find { address } => format!("find {}", hex(address)),
        Call::GoodLinks { header } => format!("good_links {}", hex(header)),
        Call::Fill => "fill".into(),
        Call::Widen { length, octet } => format!("widen {length} {octet:02x}"),
        Call::Narrow { length, octet } => format!("narrow {length} {octet:02x}"),
    }
}

/// What the lines after a call say.
pub fn read_expected(call: &Call, table: &[u8], returns: &str, changes: Option<&str>) -> Result<Expected, String> {
    let mut lent = Lent::for_call(call);
    let words: Vec<&str> = returns.split(' ').collect();
    let returned = match (&words[..], call) {
        ([">", refusal, "-"], _) if *refusal != "0" => number(refusal)?,
        ([">", "0", written, out], Call::WriteParts { .. } | Call::WriteRecord { .. }) => {
            lent.written = number(written)?;
            lent.out = octets(out)?;
            0
        }
        ([">", "0", parts], Call::Read { .. }) => {
            lent.parts = array(parts)?;
            0
        }
        ([">", "0", told], Call::NextDeadline { .. } | Call::Find { .. } | Call::GoodLinks { .. }) => {
            lent.number = number(told)?;
            0
        }
        ([">", "0", "-"], Call::Fill | Call::Widen { .. } | Call::Narrow { .. }) => 0,
        ([">", "0", answer], call) if call.answers() => {
            lent.answer = array(answer)?;
            0
        }
        _ => return Err(format!("not what such a call returns: {}", shorten(returns))),
    };
    let mut table = table.to_vec();
    if let Some(changes) = changes {
        if returned != 0 || !(call.may_change() || call.moves()) {
            return Err("a change of the table after a call that changes none".into());
        }
        let changed = if call.moves() { &mut lent.target } else { &mut table };
        for change in changes.split(' ').skip(1).collect::<Vec<_>>().chunks(2) {
            match *change {
                [offset, with] => poke(changed, offset, with)?,
                _ => return Err("a change without octets".into()),
            }
        }
    }
    Ok(Expected { number: returned, lent, table })
}

/// The lines after a call, for what it returned and left; after a move that is not refused, how the target differs from what it was.
pub fn expected_lines(call: &Call, before: &[u8], number: u32, lent: &Lent, after: &[u8]) -> String {
    let returns = match call {
        _ if number != 0 => format!("> {number} -"),
        Call::WriteParts { .. } | Call::WriteRecord { .. } => format!("> 0 {} {}", lent.written, hex(&lent.out)),
        Call::Read { .. } => format!("> 0 {}", hex(&lent.parts)),
        Call::NextDeadline { .. } | Call::Find { .. } | Call::GoodLinks { .. } => format!("> 0 {}", lent.number),
        Call::Fill | Call::Widen { .. } | Call::Narrow { .. } => "> 0 -".into(),
        _ => format!("> 0 {}", hex(&lent.answer)),
    };
    let target = Lent::for_call(call).target;
    let (before, after) = if call.moves() { (&target[..], &lent.target[..]) } else { (before, after) };
    let mut changes = String::new();
    let mut at = 0;
    while at < after.len() {
        let run = after[at..].iter().zip(&before[at..]).take_while(|(a, b)| a != b).count();
        if run > 0 {
            changes += &format!(" {at} {}", hex(&after[at..at + run]));
        }
        at += run + 1;
    }
    match changes.is_empty() {
        true => returns,
        false => format!("{returns}\n~{changes}"),
    }
}

/// The lines that make a table: a zeroed buffer and what is not zero in it.
pub fn table_lines(table: &[u8]) -> String {
    let mut lines = format!("new {} 00", table.len());
    let mut at = 0;
    while let Some(start) = table[at..].iter().position(|&octet| octet != 0).map(|zeros| at + zeros) {
        // A run goes on over fewer than 16 zeros.
        let mut end = start;
        while let Some(more) = table[end..].iter().take(16).position(|&octet| octet != 0) {
            end += more + 1;
        }
        lines += &format!("\npoke {start} {}", hex(&table[start..end]));
        at = end;
    }
    lines
}

/// Overwrites octets of the table.
pub fn poke(table: &mut [u8], offset: &str, with: &str) -> Result<(), String> {
    let (offset, with): (usize, _) = (number(offset)?, octets(with)?);
    let place = table.get_mut(offset..offset + with.len()).ok_or("octets past the table's end")?;
    place.copy_from_slice(&with);
    Ok(())
}

/// A line cut to a length that can be read.
pub fn shorten(line: &str) -> String {
    match line.char_indices().nth(600) {
        Some((end, _)) => format!("{} … ({} characters)", &line[..end], line.len()),
        None => line.into(),
    }
}

pub fn hex(octets: &[u8]) -> String {
    match octets {
        [] => "-".into(),
        _ => octets.iter().map(|octet| format!("{octet:02x}")).collect(),
    }
}

pub fn number<T: FromStr>(word: &str) -> Result<T, String> {
    word.parse().map_err(|_| format!("not a number in range: {word}"))
}

pub fn array<const N: usize>(word: &str) -> Result<[u8; N], String> {
    octets(word)?.try_into().map_err(|_| format!("not {N} octets: {word}"))
}

pub fn one_octet(word: &str) -> Result<u8, String> {
    array(word).map(|[octet]| octet)
}

pub fn octets(word: &str) -> Result<Vec<u8>, String> {
    if word == "-" {
        return Ok(Vec::new());
    }
    let digit = |digit: u8| char::from(digit).to_digit(16).map(|digit| digit as u8);
    let pair = |pair: &[u8]| Some(digit(pair[0])? << 4 | digit(*pair.get(1)?)?);
    word.as_bytes().chunks(2).map(pair).collect::<Option<_>>().ok_or_else(|| format!("not octets: {}", shorten(word)))
}
