//! The engine's C interface as a trait, and a call with all that is handed over as a value.

use crate::plain::octets::Address;

pub const SETTINGS: usize = 16;
pub const ANSWER: usize = 28;
pub const PARTS: usize = 20;

/// The numbers that a call returns: 0, or a refusal's.
pub const NUMBERS: [u32; 14] = [0, 1, 2, 3, 4, 5, 6, 7, 8, 9, 10, 11, 15, 16];

/// The fourteen functions of include/sae.h. Each returns 0 or the refusal's number.
#[allow(clippy::too_many_arguments)]
pub trait Engine {
    fn name(&self) -> &'static str;
    fn initialize(&self, table: &mut [u8], own: &Address, settings: &[u8; SETTINGS], answer: &mut [u8; ANSWER]) -> u32;
    fn initiate(&self, table: &mut [u8], address: &Address, now: u32, fresh: &[u8], answer: &mut [u8; ANSWER]) -> u32;
    fn kill(&self, table: &mut [u8], address: &Address, answer: &mut [u8; ANSWER]) -> u32;
    fn receive(
        &self,
        table: &mut [u8],
        address: &Address,
        now: u32,
        frame: &[u8],
        fresh: &[u8],
        expected: &[u8],
        verified: u8,
        answer: &mut [u8; ANSWER],
    ) -> u32;
    fn expire(&self, table: &mut [u8], now: u32, answer: &mut [u8; ANSWER]) -> u32;
    fn write_parts(
        &self,
        table: &[u8],
        sequence: u16,
        status: u16,
        group: u16,
        counter: u16,
        token: &[u8],
        rest: &[u8],
        out: &mut [u8],
        written: &mut u32,
    ) -> u32;
    fn write_record(&self, table: &[u8], address: &Address, sequence: u16, value: &[u8], out: &mut [u8], written: &mut u32) -> u32;
    fn read(&self, table: &[u8], frame: &[u8], parts: &mut [u8; PARTS]) -> u32;
    fn next_deadline(&self, table: &[u8], now: u32, milliseconds: &mut u32) -> u32;
    fn find(&self, table: &[u8], address: &Address, offset: &mut u32) -> u32;
    fn good_links(&self, header: &[u8], good: &mut u32) -> u32;
    fn fill(&self, table: &mut [u8]) -> u32;
    fn widen(&self, source: &[u8], target: &mut [u8]) -> u32;
    fn narrow(&self, source: &[u8], target: &mut [u8]) -> u32;
}

/// The engines there are to run: the plain one, and the archive's if it is linked.
pub fn engines() -> Vec<&'static dyn Engine> {
    #[cfg(archive)]
    return vec![&crate::plain::Plain, &crate::archive::Archive];
    #[cfg(not(archive))]
    return vec![&crate::plain::Plain];
}

/// A call and all that is handed over, but for the table. The panel's question looks at no table. A move's source is the table, and its
/// target is a buffer of `length` octets, each of them `octet`.
#[derive(Clone, Debug, PartialEq)]
pub enum Call {
    Initialize { own: Address, settings: [u8; SETTINGS] },
    Initiate { address: Address, now: u32, fresh: Vec<u8> },
    Kill { address: Address },
    Receive { address: Address, now: u32, frame: Vec<u8>, fresh: Vec<u8>, expected: Vec<u8>, verified: u8 },
    Expire { now: u32 },
    WriteParts { sequence: u16, status: u16, group: u16, counter: u16, token: Vec<u8>, rest: Vec<u8>, room: usize },
    WriteRecord { address: Address, sequence: u16, value: Vec<u8>, room: usize },
    Read { frame: Vec<u8> },
    NextDeadline { now: u32 },
    Find { address: Address },
    GoodLinks { header: Vec<u8> },
    Fill,
    Widen { length: usize, octet: u8 },
    Narrow { length: usize, octet: u8 },
}

/// The names of the calls, in the order of `Call::kind`.
pub const KINDS: [&str; 14] = [
    "initialize",
    "initiate",
    "kill",
    "receive",
    "expire",
    "write_parts",
    "write_record",
    "read",
    "next_deadline",
    "find",
    "good_links",
    "fill",
    "widen",
    "narrow",
];

impl Call {
    pub fn kind(&self) -> usize {
        match self {
            Call::Initialize { .. } => 0,
            Call::Initiate { .. } => 1,
            Call::Kill { .. } => 2,
            Call::Receive { .. } => 3,
            Call::Expire { .. } => 4,
            Call::WriteParts { .. } => 5,
            Call::WriteRecord { .. } => 6,
            Call::Read { .. } => 7,
            Call::NextDeadline { .. } => 8,
            Call::Find { .. } => 9,
            Call::GoodLinks { .. } => 10,
            Call::Fill => 11,
            Call::Widen { .. } => 12,
            Call::Narrow { .. } => 13,
        }
    }

    /// Whether the call has an answer of 28 octets: those that make steps.
    pub fn answers(&self) -> bool {
        self.kind() <= 4
    }

    /// Whether the call is handed a table that it may change.
    pub fn may_change(&self) -> bool {
        self.answers() || *self == Call::Fill
    }

    /// Whether the call moves the table to the other form: it reads it and writes its target.
    pub fn moves(&self) -> bool {
        matches!(self, Call::Widen { .. } | Call::Narrow { .. })
    }

    /// The table of the next call, after one that returned this number: "only one of them is used on", after a move that is not refused the
    /// target.
    pub fn used_on<'a>(&self, number: u32, table: &'a [u8], lent: &'a Lent) -> &'a [u8] {
        match number == 0 && self.moves() {
            true => &lent.target,
            false => table,
        }
    }

    /// Makes the call.
    pub fn make(&self, engine: &dyn Engine, table: &mut [u8], lent: &mut Lent) -> u32 {
        match self {
            Call::Initialize { own, settings } => engine.initialize(table, own, settings, &mut lent.answer),
            Call::Initiate { address, now, fresh } => engine.initiate(table, address, *now, fresh, &mut lent.answer),
            Call::Kill { address } => engine.kill(table, address, &mut lent.answer),
            Call::Receive { address, now, frame, fresh, expected, verified } => {
                engine.receive(table, address, *now, frame, fresh, expected, *verified, &mut lent.answer)
            }
            Call::Expire { now } => engine.expire(table, *now, &mut lent.answer),
            Call::WriteParts { sequence, status, group, counter, token, rest, .. } => {
                engine.write_parts(table, *sequence, *status, *group, *counter, token, rest, &mut lent.out, &mut lent.written)
            }
            Call::WriteRecord { address, sequence, value, .. } => {
                engine.write_record(table, address, *sequence, value, &mut lent.out, &mut lent.written)
            }
            Call::Read { frame } => engine.read(table, frame, &mut lent.parts),
            Call::NextDeadline { now } => engine.next_deadline(table, *now, &mut lent.number),
            Call::Find { address } => engine.find(table, address, &mut lent.number),
            Call::GoodLinks { header } => engine.good_links(header, &mut lent.number),
            Call::Fill => engine.fill(table),
            Call::Widen { .. } => engine.widen(table, &mut lent.target),
            Call::Narrow { .. } => engine.narrow(table, &mut lent.target),
        }
    }

    /// The length of the out buffer.
    fn room(&self) -> usize {
        match self {
            Call::WriteParts { room, .. } | Call::WriteRecord { room, .. } => *room,
            _ => 0,
        }
    }

    /// A move's target as it is lent.
    fn target(&self) -> Vec<u8> {
        match self {
            Call::Widen { length, octet } | Call::Narrow { length, octet } => vec![*octet; *length],
            _ => Vec::new(),
        }
    }
}

/// What is lent to a call to be written, but for the table.
#[derive(Clone, Debug, PartialEq)]
pub struct Lent {
    pub answer: [u8; ANSWER],
    pub parts: [u8; PARTS],
    pub written: u32,
    pub out: Vec<u8>,
    /// Milliseconds until a deadline, a record's offset, or a number of links.
    pub number: u32,
    /// The target of a move.
    pub target: Vec<u8>,
}

/// Each octet of what is lent before a call, but for the table and a target.
pub const UNTOUCHED: u8 = 0xa5;

impl Lent {
    pub fn for_call(call: &Call) -> Lent {
        Lent {
            answer: [UNTOUCHED; ANSWER],
            parts: [UNTOUCHED; PARTS],
            written: u32::from_le_bytes([UNTOUCHED; 4]),
            out: vec![UNTOUCHED; call.room()],
            number: u32::from_le_bytes([UNTOUCHED; 4]),
            target: call.target(),
        }
    }
}

/// How often each call was made, and with what number it came back.
#[derive(Clone, Default, PartialEq)]
pub struct Counts {
    of: [[u64; NUMBERS.len()]; KINDS.len()],
    /// Numbers that no refusal has.
    strange: u64,
    /// Frame calls that were compared with those of their first octets.
    alone: u64,
}

impl Counts {
    pub fn add(&mut self, call: &Call, number: u32) {
        match NUMBERS.iter().position(|known| *known == number) {
            Some(place) => self.of[call.kind()][place] += 1,
            None => self.strange += 1,
        }
    }

    pub fn add_alone(&mut self) {
        self.alone += 1;
    }

    pub fn join(&mut self, other: &Counts) {
        for (mine, theirs) in self.of.iter_mut().flatten().zip(other.of.iter().flatten()) {
            *mine += theirs;
        }
        self.strange += other.strange;
        self.alone += other.alone;
    }

    pub fn total(&self) -> u64 {
        self.of.iter().flatten().sum::<u64>() + self.strange
    }

    /// A table of calls against numbers; `.` where there was none.
    pub fn print(&self) {
        print!("  {:<14}{:>10}{:>10}", "call", "made", "done");
        NUMBERS[1..].iter().for_each(|number| print!("{:>8}", format!("ref {number}")));
        println!();
        let row = |name: &str, counts: [u64; NUMBERS.len()]| {
            print!("  {name:<14}{:>10}", counts.iter().sum::<u64>());
            for (place, count) in counts.iter().enumerate() {
                let width = if place == 0 { 10 } else { 8 };
                match count {
                    0 => print!("{:>width$}", "."),
                    _ => print!("{count:>width$}"),
                }
            }
            println!();
        };
        let mut all = [0; NUMBERS.len()];
        for (name, counts) in KINDS.iter().zip(&self.of) {
            row(name, *counts);
            all.iter_mut().zip(counts).for_each(|(sum, count)| *sum += count);
        }
        row("all", all);
        if self.strange > 0 {
            println!("  {} calls returned a number that no refusal has", self.strange);
        }
        if self.alone > 0 {
            println!("  {} frame calls with more than a Confirm's 40 octets, each as with the first 40 alone", self.alone);
        }
    }
}
