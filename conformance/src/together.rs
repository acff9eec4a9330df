//! The engines side by side: each has a table of its own, makes every call, and is compared.

use crate::forms::records;
use crate::history::Answer;
use crate::interface::{engines, Call, Counts, Engine, Lent};
use crate::moves;
use crate::panel;
use crate::plain::frame::CONFIRM_LEN;
use crate::plain::table::{GOOD_AT, HEADER, PERIOD_AT, SYNC_LIMIT_AT};
use crate::report::{difference, Outcome};
use crate::trace::{call_line, expected_lines, shorten, table_lines};

/// Octets before and after each table that no call may touch.
const GUARD: usize = 32;
const GUARD_OCTET: u8 = 0x5a;

/// A table with guards on both sides.
struct Guarded(Vec<u8>);

impl Guarded {
    fn set(&mut self, octets: &[u8]) {
        self.0.clear();
        self.0.resize(GUARD, GUARD_OCTET);
        self.0.extend_from_slice(octets);
        self.0.resize(octets.len() + 2 * GUARD, GUARD_OCTET);
    }

    fn table(&self) -> &[u8] {
        &self.0[GUARD..self.0.len() - GUARD]
    }

    fn table_mut(&mut self) -> &mut [u8] {
        let end = self.0.len() - GUARD;
        &mut self.0[GUARD..end]
    }

    fn intact(&self) -> bool {
        let guards = [&self.0[..GUARD], &self.0[self.0.len() - GUARD..]];
        guards == [&[GUARD_OCTET; GUARD], &[GUARD_OCTET; GUARD]]
    }
}

/// What is known of the table before a call.
#[derive(Clone, Copy, PartialEq)]
pub enum Known {
    Nothing,
    /// It is of its form: no call may refuse it.
    Sound,
    /// It is but for its number of good links: every call but initialize and fill must refuse it, and fill may not.
    Unfilled,
    /// It is not, whatever that number: every call but initialize must refuse it.
    Unsound,
}

/// "A deadline then moves only when a frame is sent, or a run or link starts or ends": a run starts with a frame sent, and a link
/// as its run ends. A slot that breaks it, in words.
fn moved_deadline(before: &[u8], after: &[u8], answer: &Answer) -> Option<String> {
    let slots = records(before).zip(records(after));
    for (slot, (old, new)) in slots.enumerate().filter(|(_, (old, new))| (old.t0(), old.t1()) != (new.t0(), new.t1())) {
        let sent = !answer.frames.is_empty() && new.address() == answer.address;
        let ended = (old.has_run() && !new.has_run()) || (old.has_link() && !new.has_link());
        if !sent && !ended {
            return Some(format!("  a deadline in slot {slot} moved, and nothing was sent to its peer, began or ended"));
        }
    }
    None
}

/// "Set up stores what it is given", a zero as a zero; no other call writes the number of slots, the form or the settings. A breach of
/// that, in words.
fn unlike_given(call: &Call, before: &[u8], table: &[u8]) -> Option<String> {
    let stored = |table: &[u8]| [&table[..2], &table[6..12], &table[PERIOD_AT..HEADER]].concat();
    match call {
        Call::Initialize { settings, .. } => {
            let same = table[PERIOD_AT..][..2] == settings[10..12] && table[SYNC_LIMIT_AT] == settings[12];
            (!same).then(|| "  set up stored another first period or Sync limit than it was given".into())
        }
        _ => (stored(before) != stored(table)).then(|| "  a field of the header changed that only set up writes".into()),
    }
}

/// "Header octets 12–13 keep it, true after every call not refused"; and fill writes nothing else. A breach of that, in words.
fn miscounted(call: &Call, before: &[u8], table: &[u8]) -> Option<String> {
    let (told, counted) = (panel::told(table), panel::good_links(table));
    if told != counted {
        return Some(format!("  the header says {told} good links, and the records have {counted}"));
    }
    let rest = |table: &[u8]| [&table[..GOOD_AT], &table[GOOD_AT + 2..]].concat();
    (*call == Call::Fill && rest(before) != rest(table)).then(|| "  fill wrote more than the number of good links".into())
}

/// "On a sound table it equals the count over all records; it refuses 2 exactly when it is not given 32 octets or no sound table starts
/// with them": there is one that is sound if any is. What was told otherwise, in words.
fn wrongly_told(engine: &dyn Engine, header: &[u8], told: Option<u32>) -> Option<String> {
    let witness = header.try_into().ok().and_then(panel::witness);
    let mut deadline = 0;
    let sound = witness.filter(|table| engine.next_deadline(table, 0, &mut deadline) == 0);
    match (told, sound) {
        (None, None) => None,
        (None, Some(_)) => Some("  refused, and a sound table starts with these octets".into()),
        (Some(_), None) => Some("  answered, and no sound table starts with these octets".into()),
        (Some(told), Some(table)) => {
            let counted = u32::from(panel::good_links(&table));
            (told != counted).then(|| format!("  answered {told}, and a sound table that starts with these octets has {counted}"))
        }
    }
}

/// A move is made once more, to a target of other octets with guards, then back: what the target held is not looked at, other calls take
/// the moved table, "there and back gives the same octets", and the two tables hold the same. A breach of that, in words.
fn badly_moved(engine: &dyn Engine, call: &Call, source: &[u8], number: u32, target: &[u8]) -> Option<String> {
    let mut other = call.clone();
    if let Call::Widen { octet, .. } | Call::Narrow { octet, .. } = &mut other {
        *octet = !*octet;
    }
    let lent = Lent::for_call(&other);
    let mut again = Guarded(Vec::new());
    again.set(&lent.target);
    if make_move(engine, call, source, again.table_mut()) != number || !again.intact() {
        return Some("  with another target of this length the number is another, or octets beside it were written".into());
    }
    if number != 0 {
        return (again.table() != lent.target).then(|| format!("  refused {number}, and the target changed"));
    }
    if again.table() != target {
        return Some("  what the target held before shows in it".into());
    }
    let mut deadline = 0;
    if engine.next_deadline(target, 0, &mut deadline) != 0 {
        return Some("  the moved table is not of its form".into());
    }
    let mut back = vec![GUARD_OCTET; source.len()];
    if make_move(engine, &moves::right_move(target, 0), target, &mut back) != 0 || back != source {
        return Some("  there and back does not give the same octets".into());
    }
    moves::unlike(source, target)
}

fn make_move(engine: &dyn Engine, call: &Call, source: &[u8], target: &mut [u8]) -> u32 {
    match call {
        Call::Widen { .. } => engine.widen(source, target),
        _ => engine.narrow(source, target),
    }
}

/// The start of a status 0 Confirm, up to its counter.
const CONFIRM_START: [u8; 6] = [3, 0, 2, 0, 0, 0];

/// The same call with the first 40 octets of its frame alone, if that is a longer status 0 Confirm. One that is refused 7 was not read.
fn alone(call: &Call, number: u32) -> Option<Call> {
    let mut alone = call.clone();
    match &mut alone {
        Call::Receive { frame, .. } if number != 7 && frame.len() > CONFIRM_LEN && frame.starts_with(&CONFIRM_START) => {
            frame.truncate(CONFIRM_LEN)
        }
        _ => return None,
    }
    Some(alone)
}

/// "A frame call does just what it would do with the first 40 octets alone": what differs, in words.
fn unlike_alone(engine: &dyn Engine, alone: &Call, before: &[u8], got: Outcome) -> Option<String> {
    let (mut table, mut lent) = (before.to_vec(), Lent::for_call(alone));
    let number = alone.make(engine, &mut table, &mut lent);
    difference(got, (number, &lent, &table)).map(|what| format!("  unlike the call with the first 40 octets\n{what}"))
}

/// A difference, or a fault of one engine, with the lines that make it again.
pub struct Fault {
    pub what: String,
    pub trace: String,
}

pub struct Together {
    tables: Vec<Guarded>,
    before: Vec<u8>,
    known: Known,
}

impl Together {
    pub fn new(table: &[u8], known: Known) -> Together {
        let mut together = Together { tables: engines().iter().map(|_| Guarded(Vec::new())).collect(), before: Vec::new(), known };
        together.set(table, known);
        together
    }

    /// Every engine's table becomes a copy of this one.
    pub fn set(&mut self, table: &[u8], known: Known) {
        self.tables.iter_mut().for_each(|guarded| guarded.set(table));
        self.known = known;
    }

    pub fn table(&self) -> &[u8] {
        self.tables[0].table()
    }

    /// Makes a call with every engine and answers what the first returned and what was lent to it.
    pub fn call(&mut self, call: &Call, counts: &mut Counts) -> Result<(u32, Lent), Fault> {
        self.before.clear();
        self.before.extend_from_slice(self.tables[0].table());
        let lent = Lent::for_call(call);
        let mut first: Option<(u32, Lent)> = None;
        for (place, engine) in engines().into_iter().enumerate() {
            let handed = call.clone();
            let mut got = lent.clone();
            let number = handed.make(engine, self.tables[place].table_mut(), &mut got);
            let table = self.tables[place].table();
            let mut fault = self.broken_promise(call, number, table, &lent, &got);
            if handed != *call {
                fault = Some("  what was handed over to be read was written".into());
            }
            if !self.tables[place].intact() {
                fault = Some("  octets beside the table were written".into());
            }
            if let Some(alone) = alone(call, number) {
                fault = fault.or_else(|| unlike_alone(engine, &alone, &self.before, (number, &got, table)));
            }
            if let Call::GoodLinks { header } = call {
                fault = fault.or_else(|| wrongly_told(engine, header, (number == 0).then_some(got.number)));
            }
            if call.moves() {
                fault = fault.or_else(|| badly_moved(engine, call, &self.before, number, &got.target));
            }
            if let Some((number_0, lent_0)) = &first {
                fault = fault.or_else(|| difference((number, &got, table), (*number_0, lent_0, self.tables[0].table())));
            }
            if let Some(what) = fault {
                let wanted = first.as_ref().map_or((number, &got), |(number, lent)| (*number, lent));
                return Err(self.fault(engine.name(), what, call, wanted));
            }
            first.get_or_insert((number, got));
        }
        let (number, lent) = first.expect("there is an engine");
        counts.add(call, number);
        if alone(call, number).is_some() {
            counts.add_alone();
        }
        if number == 0 && call.may_change() {
            self.known = Known::Sound;
        }
        if number == 0 && call.moves() {
            self.set(&lent.target, Known::Sound);
        }
        Ok((number, lent))
    }

    /// What an engine promises whatever it is compared with.
    fn broken_promise(&self, call: &Call, number: u32, table: &[u8], before: &Lent, after: &Lent) -> Option<String> {
        if (number != 0 || !call.may_change()) && table != self.before {
            return Some(format!("  returned {number}, and the table changed"));
        }
        if number != 0 && before != after {
            return Some(format!("  refused {number}, and a lent octet changed"));
        }
        let (taken, refused) = match (call, self.known) {
            (Call::Initialize { .. }, _) | (_, Known::Nothing) => (false, false),
            (Call::GoodLinks { header }, known) => (known == Known::Sound && header == panel::header(&self.before), false),
            (Call::Widen { .. } | Call::Narrow { .. }, Known::Sound) => (false, false),
            (_, Known::Sound) | (Call::Fill, Known::Unfilled) => (true, false),
            (_, Known::Unfilled | Known::Unsound) => (false, true),
        };
        if call.moves() && self.known == Known::Sound && number != moves::right_number(call, &self.before) {
            return Some(format!("  returned {number}, and a move of such a table {}", moves::right_number(call, &self.before)));
        }
        if number == 2 && taken {
            return Some("  a sound table was refused".into());
        }
        if number != 2 && refused {
            return Some(format!("  returned {number} for a table that is not of its form"));
        }
        if taken && number == 0 && matches!(call, Call::GoodLinks { .. }) && after.number != u32::from(panel::good_links(table)) {
            return Some(format!("  answered {}, and the records have {}", after.number, panel::good_links(table)));
        }
        if *call == Call::Fill && self.known == Known::Sound && table != self.before {
            return Some("  fill changed a sound table".into());
        }
        if number == 0 {
            let mut allowed = before.clone();
            match call {
                Call::WriteParts { .. } | Call::WriteRecord { .. } => {
                    let written = (after.written as usize).min(allowed.out.len());
                    allowed.written = written as u32;
                    allowed.out[..written].copy_from_slice(&after.out[..written]);
                }
                Call::Read { .. } => allowed.parts = after.parts,
                Call::NextDeadline { .. } | Call::Find { .. } | Call::GoodLinks { .. } => allowed.number = after.number,
                Call::Fill => {}
                Call::Widen { .. } | Call::Narrow { .. } => allowed.target.clone_from(&after.target),
                _ => allowed.answer = after.answer,
            }
            if allowed != *after {
                return Some("  an octet was written that is not of the answer".into());
            }
            if call.may_change() {
                let broken = unlike_given(call, &self.before, table).or_else(|| miscounted(call, &self.before, table));
                return match call {
                    Call::Initialize { .. } | Call::Fill => broken,
                    _ => broken.or_else(|| moved_deadline(&self.before, table, &Answer::read(&after.answer))),
                };
            }
        }
        None
    }

    fn fault(&self, name: &str, what: String, call: &Call, wanted: (u32, &Lent)) -> Fault {
        let trace = format!("# {name}\n{}", self.lines(call, wanted));
        Fault { what: format!("{name} differs\n  {}\n{what}", shorten(&call_line(call))), trace }
    }

    /// The lines that make the last call again, with what it returned.
    pub fn lines(&self, call: &Call, (number, lent): (u32, &Lent)) -> String {
        let expected = expected_lines(call, &self.before, number, lent, self.tables[0].table());
        format!("{}\n{}\n{expected}\n", table_lines(&self.before), call_line(call))
    }
}
