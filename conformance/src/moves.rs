//! Moves between the forms: what one returns, whether two tables hold the same, and a call on a moved table as on the one that was not.

use crate::forms::{groups_of, records, Layout, Seen, NARROW, WIDE};
use crate::inputs::other_parts;
use crate::interface::{Call, Lent};
use crate::panel;
use crate::plain::peer::at;
use crate::plain::table::{HEADER, RECORD_SIZE_AT};

/// The move out of a form, to a target of so many octets, each of them `octet`.
pub fn move_from(form: &Layout, length: usize, octet: u8) -> Call {
    match *form == NARROW {
        true => Call::Widen { length, octet },
        false => Call::Narrow { length, octet },
    }
}

/// The move of a sound table to the other form, with a target of its length there.
pub fn right_move(table: &[u8], octet: u8) -> Call {
    let form = Layout::of(table).expect("a sound table");
    move_from(form, form.other().length(records(table).len()), octet)
}

/// The number that a move returns for a sound table: 2, 15 or 16, then 1.
pub fn right_number(call: &Call, source: &[u8]) -> u32 {
    let (from, length) = match *call {
        Call::Widen { length, .. } => (&NARROW, length),
        Call::Narrow { length, .. } => (&WIDE, length),
        _ => return 0,
    };
    let (to, slots) = (from.other(), records(source).len());
    if Layout::of(source) != Some(from) {
        2
    } else if slots > to.slots {
        15
    } else if !to.lists().contains(&groups_of(source)) {
        16
    } else {
        u32::from(length != to.length(slots))
    }
}

/// Whether two tables, of either form each, hold the same: each field of the header but the record size, and the record in each slot,
/// filling zeros aside. What differs, in words.
pub fn unlike(table: &[u8], other: &[u8]) -> Option<String> {
    let carried = |table: &[u8]| [&table[..RECORD_SIZE_AT], &table[RECORD_SIZE_AT + 2..HEADER]].concat();
    if carried(table) != carried(other) {
        return Some("  the headers differ in more than the record size".into());
    }
    if records(table).len() != records(other).len() {
        return Some(format!("  {} records and {}", records(table).len(), records(other).len()));
    }
    let slot = records(table).zip(records(other)).position(|(record, other)| contents(record) != contents(other))?;
    Some(format!("  the records in slot {slot} differ"))
}

/// The octets of a record, the four commits in the width of the wide form.
fn contents(record: Seen) -> Vec<u8> {
    let Seen { form, octets } = record;
    let run = [&octets[..at::OWN], &record.own(), &record.peer()].concat();
    let link = [&octets[form.token..form.link_own], &record.link_own(), &record.link_peer()].concat();
    [run, link].concat()
}

/// A call on a table as it is made on the moved one: "the same stocks in its own length", and the panel's question asked of its header.
pub fn twin(call: &Call, table: &[u8], moved: &[u8]) -> Call {
    let mut twin = call.clone();
    match &mut twin {
        Call::Initiate { fresh, .. } | Call::Receive { fresh, .. } => *fresh = other_stock(fresh, table),
        Call::GoodLinks { header } => *header = panel::header(moved).to_vec(),
        _ => {}
    }
    twin
}

/// The same fresh commits in the other form's width. What is no stock for this table, by its length or by octets that the other form has no
/// room for, is none there either, by its length.
fn other_stock(fresh: &[u8], table: &[u8]) -> Vec<u8> {
    let form = Layout::of(table).expect("a sound table");
    let groups = usize::from(groups_of(table).count);
    let (length, parts) = (form.commit * groups, other_parts(fresh, form));
    if fresh.len() == length && other_parts(&parts, form.other()) == fresh {
        return parts;
    }
    let mut wrong = fresh.to_vec();
    if wrong.len() == form.other().commit * groups {
        wrong.push(0);
    }
    wrong
}

/// What a call on the moved table wrote, as one on the other would have: an offset is that of the same slot.
pub fn lent_unmoved(call: &Call, table: &[u8], moved: &[u8], lent: &Lent) -> Lent {
    let mut lent = lent.clone();
    if let (Call::Find { .. }, Some(there), Some(here)) = (call, Layout::of(moved), Layout::of(table)) {
        if let Some(behind) = (lent.number as usize).checked_sub(HEADER) {
            lent.number = (here.length(behind / there.record) + behind % there.record) as u32;
        }
    }
    lent
}
