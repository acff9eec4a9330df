//! What differs between two outcomes of one call, in words.

use crate::forms::Layout;
use crate::interface::Lent;
use crate::plain::table::HEADER;
use crate::trace::hex;

/// A number returned, what was lent, and the table.
pub type Outcome<'a> = (u32, &'a Lent, &'a [u8]);

/// What differs, if anything does.
pub fn difference(got: Outcome, wanted: Outcome) -> Option<String> {
    if got == wanted {
        return None;
    }
    let mut told = Vec::new();
    if got.0 != wanted.0 {
        told.push(format!("  returned {}, wanted {}", got.0, wanted.0));
    }
    if got.1.written != wanted.1.written {
        told.push(format!("  length written {}, wanted {}", got.1.written, wanted.1.written));
    }
    if got.1.number != wanted.1.number {
        told.push(format!("  number {}, wanted {}", got.1.number, wanted.1.number));
    }
    told.extend(octets("answer", &got.1.answer, &wanted.1.answer));
    told.extend(octets("parts", &got.1.parts, &wanted.1.parts));
    told.extend(octets("out buffer", &got.1.out, &wanted.1.out));
    told.extend(octets("table", got.2, wanted.2));
    told.extend(octets("target", &got.1.target, &wanted.1.target));
    Some(told.join("\n"))
}

/// The first octets that differ.
fn octets(what: &str, got: &[u8], wanted: &[u8]) -> Option<String> {
    if got.len() != wanted.len() {
        return Some(format!("  {what}: {} octets, wanted {}", got.len(), wanted.len()));
    }
    let at = got.iter().zip(wanted).position(|(a, b)| a != b)?;
    let differing = got.iter().zip(wanted).filter(|(a, b)| a != b).count();
    let place = if ["table", "target"].contains(&what) { table_place(wanted, at) } else { String::new() };
    let show = |octets: &[u8]| hex(&octets[at..octets.len().min(at + 16)]);
    Some(format!("  {what}: {differing} octets differ, the first at {at}{place}: got {}, wanted {}", show(got), show(wanted)))
}

fn table_place(table: &[u8], at: usize) -> String {
    match (at.checked_sub(HEADER), Layout::of(table)) {
        (None, _) => " (header)".into(),
        (Some(at), Some(form)) => format!(" ({} form, slot {}, record octet {})", form.name, at / form.record, at % form.record),
        (Some(_), None) => " (of no form)".into(),
    }
}
