//! The panel's question beside the records: what it must answer of a sound table's header, and the table that tells whether a sound one
//! starts with a header.

use crate::forms::{groups_of, records, Layout};
use crate::plain::octets::{get16, put16};
use crate::plain::peer::at;
use crate::plain::table::{GOOD_AT, HEADER};

/// The good links, counted over all records.
pub fn good_links(table: &[u8]) -> u16 {
    records(table).filter(|peer| peer.has_good_link()).count() as u16
}

/// What the header says of them.
pub fn told(table: &[u8]) -> u16 {
    get16(table, GOOD_AT)
}

/// The header of a table, or all there is of it.
pub fn header(table: &[u8]) -> &[u8] {
    table.get(..HEADER).unwrap_or(table)
}

/// A table that starts with these 32 octets and has records as they say: in use from the first slot on, with addresses of their own;
/// the first of them with a clear link, the others with a marked one; the first of them with a run in Committed. If a sound table
/// starts with the octets, this one is sound. None if the octets tell no form, or a number of slots or of records that it cannot have.
pub fn witness(header: &[u8; HEADER]) -> Option<Vec<u8>> {
    let form = Layout::of(header)?;
    let [slots, in_use, open] = [0, 2, 4].map(|at| usize::from(get16(header, at)));
    let good = usize::from(told(header));
    if slots > form.slots || in_use > slots {
        return None;
    }
    let mut table = header.to_vec();
    table.resize(form.length(slots), 0);
    let first = groups_of(header).list[0];
    for (place, octets) in table[HEADER..].chunks_exact_mut(form.record).take(in_use).enumerate() {
        octets[at::IN_USE] = 1;
        octets[at::ADDRESS..at::STATE].copy_from_slice(&[2, 0, 0, 0, !header[20], place as u8]);
        if place < open {
            octets[at::STATE] = 1;
            put16(octets, at::GROUP, first);
        }
        octets[form.link] = 1;
        octets[form.superseded] = u8::from(place >= good);
        put16(octets, form.link_group, first);
    }
    Some(table)
}
