//! Faults: a table of the form with one thing wrong, or with octets changed anywhere.

use crate::forms::{groups_of, pace_of, records, Layout, NARROW};
use crate::inputs::{WRONG_PERIODS, WRONG_SYNC_LIMITS};
use crate::panel;
use crate::plain::frame::commit_len;
use crate::plain::octets::{get16, put16, Address};
use crate::plain::peer::at;
use crate::plain::table::{Groups, GOOD_AT, HEADER, PERIOD_AT, SYNC_LIMIT_AT, TOKEN};
use crate::random::Random;

/// Makes a table of the form unsound by one fault that is surely one, whatever its number of good links. Answers what it is, or nothing if
/// there is no place for it.
pub fn fault(random: &mut Random, table: &mut Vec<u8>) -> Option<&'static str> {
    let form = Layout::of(table)?;
    if random.percent(35) {
        return fault_in_header(random, table, form);
    }
    let slot = random.below(records(table).len());
    let groups = groups_of(table);
    let highest_sync = pace_of(table)?.highest_sync();
    let own: Address = table[16..22].try_into().expect("six octets");
    let others: Vec<Address> =
        records(table).enumerate().filter(|(at, peer)| *at != slot && peer.in_use()).map(|(_, peer)| peer.address()).collect();
    let octets = &mut table[form.length(slot)..form.length(slot + 1)];
    if octets[at::IN_USE] == 0 {
        octets[random.below(form.record)] = random.within(1, 255) as u8;
        return Some("an octet of a free slot");
    }
    let nonzero = random.within(1, 255) as u8;
    let listed = |group: u16| groups.lists(group);
    let unlisted = *[0, 18, 19, 20, 21, 22, 275, 277].iter().filter(|&&group| !listed(group)).nth(random.below(4)).expect("there are four");
    match random.below(4) {
        0 => address_fault(random, octets, own, &others),
        1 | 2 if octets[at::STATE] == 0 => {
            octets[random.within(at::STATE + 1, form.link - 1)] = nonzero;
            Some("an octet of no run")
        }
        1 | 2 if random.percent(10) => run_sync_fault(random, octets, highest_sync),
        1 | 2 => run_fault(random, octets, form, &groups, unlisted, nonzero),
        _ if octets[form.link] == 0 => {
            octets[random.within(form.link + 1, form.record - 1)] = nonzero;
            Some("an octet of no link")
        }
        _ if random.percent(15) => link_sync_fault(random, octets, form, highest_sync),
        _ => link_fault(random, octets, form, unlisted, nonzero),
    }
}

/// Gives a table of the form another number of good links than it has, or takes or gives a link its mark and leaves the number. Answers
/// what was done.
pub fn miscount(random: &mut Random, table: &mut [u8]) -> &'static str {
    let form = Layout::of(table).expect("a table of the form");
    let linked: Vec<usize> = records(table).enumerate().filter(|(_, peer)| peer.has_link()).map(|(slot, _)| slot).collect();
    if !linked.is_empty() && random.percent(30) {
        table[form.length(*random.pick(&linked)) + form.superseded] ^= 1;
        return "a mark without the number of good links";
    }
    let (right, in_use) = (panel::told(table), get16(table, 2));
    let near = [right.wrapping_add(1), right.wrapping_sub(1), linked.len() as u16, in_use, in_use + 1, right ^ 256, 65535];
    let wrong = if right > 0 && random.percent(40) { 0 } else { *random.pick(&near) };
    put16(table, GOOD_AT, if wrong == right { right + 1 } else { wrong });
    "number of good links"
}

/// Puts another number than its own in a field of the header. Answers whether it is another.
fn other(random: &mut Random, table: &mut [u8], place: usize) -> bool {
    let now = get16(table, place);
    let new = *random.pick(&[0, 1, 2, 31, 33, 60, 61, 64, 65, 863, 865, 1079, 1081, 65535, now.wrapping_add(1), now ^ 256]);
    put16(table, place, new);
    new != now
}

/// Changes a field of a header, alone: no sound table may start with it afterwards, or one may.
pub fn header_fault(random: &mut Random, header: &mut [u8]) {
    let Some(form) = Layout::of(header) else { return };
    let [slots, in_use] = [0, 2].map(|at| get16(header, at));
    match random.below(14) {
        0 => put16(header, 0, *random.pick(&[0, 1, 60, 61, 64, 65, 256, slots ^ 256, in_use, in_use.wrapping_sub(1)])),
        1 => put16(header, 2, *random.pick(&[0, slots, slots.wrapping_add(1), 256, in_use ^ 256])),
        2 => put16(header, 4, *random.pick(&[0, in_use, in_use.wrapping_add(1), slots, 256, in_use ^ 256, 65535])),
        3 => put16(header, GOOD_AT, *random.pick(&[0, in_use, in_use.wrapping_add(1), slots, 256, in_use ^ 256, 65535])),
        4 => put16(header, 6, *random.pick(&[0, 863, 864, 865, 1079, 1080, 1081])),
        5 => put16(header, 8, *random.pick(&[0, 31, 33, 32 + 256])),
        6 => header[*random.pick(&[10, 11])] = random.within(1, 255) as u8,
        7 => header[16] ^= 1,
        8 => header[16..22].fill(0),
        9 => header[22] = *random.pick(&[0, 1, 2, 3, 4, 255]),
        10 => {
            group_fault(random, header, form);
        }
        11 => put16(header, 28, *random.pick(&[64, 65, 66, 256, 65535])),
        12 => put16(header, PERIOD_AT, *random.pick(&WRONG_PERIODS)),
        _ => header[SYNC_LIMIT_AT] = *random.pick(&WRONG_SYNC_LIMITS),
    }
}

fn fault_in_header(random: &mut Random, table: &mut Vec<u8>, form: &Layout) -> Option<&'static str> {
    match random.below(20) {
        0 => other(random, table, 0).then_some("slots"),
        1 => other(random, table, 2).then_some("count in use"),
        2 => other(random, table, 4).then_some("Open"),
        3 => other(random, table, 6).then_some("record size"),
        4 => other(random, table, 8).then_some("first record's offset"),
        5 => {
            table[*random.pick(&[10, 11])] = random.within(1, 255) as u8;
            Some("a zero octet of the header")
        }
        6 => {
            table[16] |= 1;
            Some("own address, a group's")
        }
        7 => {
            table[16..22].fill(0);
            Some("own address, zero")
        }
        8 => {
            table[22] = *random.pick(&[0, 4, 255, table[22] + 1, table[22] - 1]);
            Some("group count")
        }
        9 | 10 => group_fault(random, table, form),
        11 => {
            put16(table, 28, *random.pick(&[65, 66, 128, 256, 320, 65535]));
            Some("threshold")
        }
        12 => {
            // The number of slots stays, and is not that of the other form, also where the length is one of its own.
            put16(table, 6, form.other().record as u16);
            Some("the other form's record size")
        }
        13 => {
            table.resize(form.length(form.slots + 1), 0);
            put16(table, 0, form.slots as u16 + 1);
            Some("a slot too many")
        }
        14 | 15 => {
            put16(table, PERIOD_AT, *random.pick(&WRONG_PERIODS));
            Some("first period")
        }
        16 => {
            table[SYNC_LIMIT_AT] = *random.pick(&WRONG_SYNC_LIMITS);
            Some("Sync limit, above 10")
        }
        17 => lowered_limit(table),
        _ => {
            let (length, record, most) = (table.len(), form.record, form.length(form.slots + 1));
            let new = *random.pick(&[0, 1, 31, 32, 33, length - 1, length + 1, length - record, length + record, most]);
            table.resize(new, 0);
            Some("length")
        }
    }
}

/// A Sync limit, right by itself, that is too low for a record's Sync.
fn lowered_limit(table: &mut [u8]) -> Option<&'static str> {
    let highest = records(table).flat_map(|peer| [peer.sync(), peer.link_sync()]).max()?;
    table[SYNC_LIMIT_AT] = highest.checked_sub(2).filter(|limit| *limit > 0)?;
    Some("Sync limit, below a record's Sync")
}

/// A Sync above those that are stored: mostly the next.
fn sync_above(random: &mut Random, highest: u8) -> u8 {
    match random.percent(60) {
        true => highest + 1,
        false => random.within(usize::from(highest) + 1, 255) as u8,
    }
}

/// A run's Sync above the limit + 1; Sc goes with it, so that nothing else is wrong.
fn run_sync_fault(random: &mut Random, octets: &mut [u8], highest: u8) -> Option<&'static str> {
    let sync = sync_above(random, highest);
    octets[at::SYNC] = sync;
    if octets[at::STATE] == 2 {
        put16(octets, at::SC, u16::from(sync) + 1);
    }
    Some("Sync, above the limit + 1")
}

fn link_sync_fault(random: &mut Random, octets: &mut [u8], form: &Layout, highest: u8) -> Option<&'static str> {
    octets[form.link_sync] = sync_above(random, highest);
    Some("link's Sync, above the limit + 1")
}

/// A list of groups that the form does not have.
fn group_fault(random: &mut Random, table: &mut [u8], form: &Layout) -> Option<&'static str> {
    let (first, second) = (get16(table, 24), get16(table, 26));
    match (random.below(4), table[22]) {
        (0, _) => {
            put16(table, 24, *random.pick(&[0, 18, 22, 275, 277]));
            Some("first group")
        }
        (1, count) => {
            let wrong: &[u16] = if count == 1 { &[19, 20, 21, 256] } else { &[0, 18, 22, 275, first] };
            put16(table, 26, *random.pick(wrong));
            Some("second group")
        }
        (2, count) => {
            let wrong: &[u16] = if count < 3 { &[19, 20, 21, 256] } else { &[0, 18, 22, 275, first, second] };
            put16(table, 30, *random.pick(wrong));
            Some("third group")
        }
        (_, count) if *form == NARROW => {
            match count {
                2 if random.percent(50) => {
                    table[22] = 3;
                    put16(table, 30, 21);
                }
                count => put16(table, if count == 1 { 24 } else { *random.pick(&[24, 26]) }, 21),
            }
            Some("group 21 in the narrow form")
        }
        _ => None,
    }
}

fn address_fault(random: &mut Random, octets: &mut [u8], own: Address, others: &[Address]) -> Option<&'static str> {
    let place = at::ADDRESS..at::STATE;
    match random.below(5) {
        0 => {
            octets[at::IN_USE] = random.within(2, 255) as u8;
            Some("in use, above 1")
        }
        1 => {
            octets[at::IN_USE] = 0;
            Some("in use, cleared")
        }
        2 => {
            octets[place].copy_from_slice(&own);
            Some("our own address")
        }
        3 => {
            octets[at::ADDRESS] |= 1;
            Some("a group's address")
        }
        _ if others.is_empty() => {
            octets[place].fill(0);
            Some("address, zero")
        }
        _ => {
            octets[place].copy_from_slice(&others[random.below(others.len())]);
            Some("an address twice")
        }
    }
}

fn run_fault(random: &mut Random, octets: &mut [u8], form: &Layout, groups: &Groups, unlisted: u16, nonzero: u8) -> Option<&'static str> {
    let (committed, commit) = (octets[at::STATE] == 1, commit_len(get16(octets, at::GROUP)));
    let token = usize::from(get16(octets, at::TOKEN_LEN));
    match random.below(10) {
        0 => {
            octets[at::STATE] = random.within(3, 255) as u8;
            Some("run state, above 2")
        }
        1 => {
            octets[at::STATE] = 3 - octets[at::STATE];
            Some("run state, the other")
        }
        2 if committed => {
            octets[at::REJECTED] |= 1 << groups.place(get16(octets, at::GROUP));
            Some("rejected, the run's own")
        }
        2 => {
            octets[at::REJECTED] = nonzero;
            Some("rejected in Confirmed")
        }
        3 => {
            octets[at::REJECTED] |= 1 << random.within(usize::from(groups.count), 7);
            Some("rejected, past the list")
        }
        4 => {
            let sc = get16(octets, at::SC);
            put16(octets, at::SC, *random.pick(&[sc + 1, sc + 256, sc.wrapping_sub(1)]));
            Some("Sc")
        }
        5 => {
            put16(octets, at::GROUP, unlisted);
            Some("run's group")
        }
        6 => {
            put16(octets, at::TOKEN_LEN, *random.pick(&[257, 512, 65535]));
            Some("token length, above 256")
        }
        7 if token < TOKEN => {
            octets[random.within(form.token + token, form.link - 1)] = nonzero;
            Some("past the token")
        }
        8 if commit < form.commit => past_commit(random, octets, form, at::OWN, commit, nonzero, "past the own commit"),
        9 if committed => {
            octets[random.within(form.peer, form.token - 1)] = nonzero;
            Some("peer commit in Committed")
        }
        9 if commit < form.commit => past_commit(random, octets, form, form.peer, commit, nonzero, "past the peer commit"),
        _ => None,
    }
}

fn link_fault(random: &mut Random, octets: &mut [u8], form: &Layout, unlisted: u16, nonzero: u8) -> Option<&'static str> {
    let commit = commit_len(get16(octets, form.link_group));
    match random.below(6) {
        0 => {
            octets[form.link] = random.within(2, 255) as u8;
            Some("link flag, above 1")
        }
        1 => {
            octets[form.link] = 0;
            Some("link flag, cleared")
        }
        2 => {
            octets[form.superseded] = random.within(2, 255) as u8;
            Some("mark, above 1")
        }
        3 => {
            octets[form.link_pad] = nonzero;
            Some("the zero octet behind the link's Sync")
        }
        4 => {
            put16(octets, form.link_group, unlisted);
            Some("link's group")
        }
        _ if commit < form.commit => {
            let place = *random.pick(&[form.link_own, form.link_peer]);
            past_commit(random, octets, form, place, commit, nonzero, "past a link's commit")
        }
        _ => None,
    }
}

/// An octet behind a shorter commit: where the narrow form has room for one too, or past that.
fn past_commit(
    random: &mut Random,
    octets: &mut [u8],
    form: &Layout,
    place: usize,
    commit: usize,
    nonzero: u8,
    what: &'static str,
) -> Option<&'static str> {
    let from = if form.commit > NARROW.commit && random.percent(50) { commit.max(NARROW.commit) } else { commit };
    octets[random.within(place + from, place + form.commit - 1)] = nonzero;
    Some(if from >= NARROW.commit { "past a commit, behind its octet 144" } else { what })
}

/// Changes octets anywhere, or the form that the header tells of a length that both have: the table may be sound afterwards or not.
pub fn scratch(random: &mut Random, table: &mut [u8]) {
    if let Some(other) = Layout::of(table).map(Layout::other).filter(|_| random.percent(20)) {
        if let Some(slots) = other.slots_for(table.len()) {
            put16(table, 0, slots as u16);
            put16(table, 6, other.record as u16);
            return;
        }
    }
    for _ in 0..random.within(1, 3) {
        if table.is_empty() {
            return;
        }
        let place = match random.below(3) {
            0 => random.below(table.len().min(HEADER)),
            1 if table.len() > HEADER => HEADER + random.below((table.len() - HEADER).min(20)),
            _ => random.below(table.len()),
        };
        table[place] = match random.below(4) {
            0 => random.octet(),
            1 => table[place] ^ 1 << random.below(8),
            2 => table[place].wrapping_add(1),
            _ => table[place].wrapping_sub(1),
        };
    }
}
