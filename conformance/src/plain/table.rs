//! The lent table: its layout, its form, and the places in it.

use super::form::{Form, GROUPS, SLOTS, WIDE};
use super::frame::{commit_len, scalar_len};
use super::octets::{all_zero, get16, individual, pack, put16, usable, Address};
use super::peer::{move_record, Peer};

/// Octets of the longest token.
pub const TOKEN: usize = 256;
/// The highest token threshold.
pub const HIGHEST_THRESHOLD: u16 = 64;
/// Octets of the header: the offset of the first record.
pub const HEADER: usize = 32;
/// Where the header has the size of a record: in a move it alone is not carried.
pub const RECORD_SIZE_AT: usize = 6;
/// Where the header has the groups: "the third in header octets 30–31".
const GROUPS_AT: [usize; GROUPS] = [24, 26, 30];
/// Where the settings have them.
const SETTINGS_GROUPS_AT: [usize; GROUPS] = [2, 4, 6];
/// Where the header has the number of good links, in both forms: "Header octets 12–13 keep it".
pub const GOOD_AT: usize = 12;
/// Where the header has the first period and the Sync limit, in both forms.
pub const PERIOD_AT: usize = 14;
pub const SYNC_LIMIT_AT: usize = 23;

/// What set up is given. It stores period and Sync limit as they are given, a zero as a zero.
pub struct Settings {
    pub groups: Groups,
    pub threshold: u16,
    pub period: u16,
    pub sync_limit: u8,
}

/// "Factory settings belong to the settings type: groups 19 and 20, threshold 5, period 40, Sync limit 5."
impl Settings {
    pub const THRESHOLD: u16 = 5;
    pub const PERIOD: u16 = 40;
    pub const SYNC_LIMIT: u8 = 5;

    pub fn factory() -> Settings {
        let groups = Groups { count: 2, list: [19, 20, 0] };
        Settings { groups, threshold: Self::THRESHOLD, period: Self::PERIOD, sync_limit: Self::SYNC_LIMIT }
    }

    /// The settings that 16 octets say, if they are right: those of the form that set up makes.
    pub fn read(octets: &[u8; 16]) -> Option<Settings> {
        let groups = Groups { count: octets[0], list: SETTINGS_GROUPS_AT.map(|at| get16(octets, at)) };
        let settings = Settings { groups, threshold: get16(octets, 8), period: get16(octets, 10), sync_limit: octets[12] };
        let zeros = octets[1] == 0 && all_zero(&octets[13..]);
        let paced = Pace::of(settings.period, settings.sync_limit).is_some();
        (zeros && paced && groups.right::<WIDE>() && settings.threshold <= HIGHEST_THRESHOLD).then_some(settings)
    }

    /// The 16 octets that say these settings.
    pub fn octets(&self) -> [u8; 16] {
        let mut octets = [0; 16];
        octets[0] = self.groups.count;
        for (at, group) in SETTINGS_GROUPS_AT.into_iter().zip(self.groups.list) {
            put16(&mut octets, at, group);
        }
        put16(&mut octets, 8, self.threshold);
        put16(&mut octets, 10, self.period);
        octets[12] = self.sync_limit;
        octets
    }
}

/// How a run repeats: what the stored period and Sync limit come to.
#[derive(Clone, Copy, PartialEq)]
pub struct Pace {
    period: u32,
    pub sync_limit: u8,
}

impl Pace {
    /// The pace that a table or settings say, if both fields are right.
    pub fn of(period: u16, sync_limit: u8) -> Option<Pace> {
        Some(Pace { period: effective_period(period)?, sync_limit: effective_sync_limit(sync_limit)? })
    }

    /// The highest Sync that is stored: "A stored Sync runs from 0 to limit + 1."
    pub fn highest_sync(&self) -> u8 {
        self.sync_limit + 1
    }

    /// Milliseconds from a frame sent to t0: the period × 2^Sync.
    pub fn delay(&self, sync: u8) -> u32 {
        self.period << sync
    }
}

/// "First period 10 to 1,000 ms. Zero means the factory's."
fn effective_period(stored: u16) -> Option<u32> {
    match stored {
        0 => Some(u32::from(Settings::PERIOD)),
        10..=1000 => Some(u32::from(stored)),
        _ => None,
    }
}

/// "Sync limit 1 to 10. Zero means the factory's."
fn effective_sync_limit(stored: u8) -> Option<u8> {
    match stored {
        0 => Some(Settings::SYNC_LIMIT),
        1..=10 => Some(stored),
        _ => None,
    }
}

/// The listed groups, the most preferred first; 0 past the count.
#[derive(Clone, Copy, PartialEq)]
pub struct Groups {
    pub count: u8,
    pub list: [u16; GROUPS],
}

impl Groups {
    pub fn in_header(head: &[u8; HEADER]) -> Groups {
        Groups { count: head[22], list: GROUPS_AT.map(|at| get16(head, at)) }
    }

    pub fn listed(&self) -> &[u16] {
        &self.list[..usize::from(self.count)]
    }

    /// "Supported means listed in the table."
    pub fn lists(&self, group: u16) -> bool {
        group != 0 && self.list.contains(&group)
    }

    /// The place of a listed group: its bit among the rejected ones, its part of the fresh commits.
    pub fn place(&self, group: u16) -> usize {
        self.list.iter().take_while(|&&listed| listed != group).count()
    }

    /// "group count (1 or 2); the groups (19 or 20), each once, in order of preference"; 0 past the count. In the wide form "the
    /// list holds up to three groups", and 21 has room.
    fn right<const R: usize>(&self) -> bool {
        let known = |group| scalar_len(group) != 0 && commit_len(group) <= Form::<R>::COMMIT;
        let [first, second, third] = self.list;
        match self.count {
            1 => known(first) && second == 0 && third == 0,
            2 => known(first) && known(second) && first != second && third == 0,
            3 if Form::<R>::GROUPS == 3 => {
                known(first) && known(second) && known(third) && first != second && first != third && second != third
            }
            _ => false,
        }
    }

    /// "A stock: 144 octets for each group in list order, a shorter commit followed by zeros"; in the wide form 198.
    pub fn fresh_right<const R: usize>(&self, fresh: &[u8]) -> bool {
        let parts = fresh.chunks_exact(Form::<R>::COMMIT);
        fresh.len() == Form::<R>::COMMIT * usize::from(self.count)
            && self.listed().iter().zip(parts).all(|(&group, commit)| all_zero(&commit[commit_len(group)..]))
    }

    /// The fresh commit for a listed group, without the zeros behind.
    pub fn fresh_commit<'a, const R: usize>(&self, fresh: &'a [u8], group: u16) -> &'a [u8] {
        &fresh[Form::<R>::COMMIT * self.place(group)..][..commit_len(group)]
    }
}

/// What the calls need of the header of a sound table.
pub struct Header {
    pub own: u64,
    pub groups: Groups,
    pub threshold: u16,
    pub open: u16,
    pub pace: Pace,
}

/// What the header says of the size of a record, if there is a header: it alone tells the form.
pub fn record_size(table: &[u8]) -> Option<usize> {
    table.first_chunk::<HEADER>().map(|head| usize::from(get16(head, RECORD_SIZE_AT)))
}

/// The slots of a table of the right length.
pub fn slots<const R: usize>(table: &[u8]) -> &[[u8; R]] {
    table[HEADER..].as_chunks().0
}

/// The record in a slot, to be changed.
pub fn peer_at<const R: usize>(table: &mut [u8], slot: usize) -> Peer<&mut [u8; R]> {
    Peer(&mut table[HEADER..].as_chunks_mut().0[slot])
}

/// The number of slots for which a table has this length: "The table's length is 32 + 864 × N", N from 1 to 64; of 1,080, "N is at
/// most 60".
pub fn slots_for<const R: usize>(length: usize) -> Option<usize> {
    let records = length.checked_sub(HEADER)?;
    (records % R == 0 && (1..=Form::<R>::SLOTS).contains(&(records / R))).then_some(records / R)
}

/// "Set up (also clears)".
pub fn initialize<const R: usize>(table: &mut [u8], slots: usize, own: &Address, settings: &Settings) {
    table.fill(0);
    put16(table, 0, slots as u16);
    put16(table, RECORD_SIZE_AT, R as u16);
    put16(table, 8, HEADER as u16);
    table[16..22].copy_from_slice(own);
    table[22] = settings.groups.count;
    for (at, group) in GROUPS_AT.into_iter().zip(settings.groups.list) {
        put16(table, at, group);
    }
    put16(table, 28, settings.threshold);
    put16(table, PERIOD_AT, settings.period);
    table[SYNC_LIMIT_AT] = settings.sync_limit;
}

/// Writes a table of records of `R` octets as one of `T`: "runs, deadlines and tokens go along", each record in its slot. None if the
/// target is "not of the new length".
pub fn move_to<const R: usize, const T: usize>(source: &[u8], target: &mut [u8]) -> Option<()> {
    let records = slots::<R>(source);
    if target.len() != HEADER + T * records.len() {
        return None;
    }
    target[..HEADER].copy_from_slice(&source[..HEADER]);
    put16(target, RECORD_SIZE_AT, T as u16);
    for (record, place) in records.iter().zip(target[HEADER..].as_chunks_mut::<T>().0) {
        move_record(record, place);
    }
    Some(())
}

/// The header, if the table is of its form: "01's form of the table gains that condition", that 12–13 is the number of good links.
pub fn sound<const R: usize>(table: &[u8]) -> Option<Header> {
    let (header, good) = otherwise_sound::<R>(table)?;
    (good == get16(table, GOOD_AT)).then_some(header)
}

/// The header and the number of good links, if the table is of its form whatever 12–13 says. One pass.
pub fn otherwise_sound<const R: usize>(table: &[u8]) -> Option<(Header, u16)> {
    let slots = slots_for::<R>(table.len())?;
    let (head, records) = table.split_first_chunk()?;
    let header = sound_header::<R>(head, slots)?;
    let mut addresses = [0; SLOTS];
    let (mut in_use, mut open, mut good) = (0, 0, 0);
    for octets in records.as_chunks::<R>().0 {
        let peer = Peer(octets);
        if !peer.in_use() {
            // "Unused parts and free slots are zero."
            if !all_zero(octets) {
                return None;
            }
            continue;
        }
        // "Addresses are usable and differ."
        let address = pack(peer.address());
        if octets[0] != 1 || !usable(address, header.own) || among(&addresses[..in_use], address) {
            return None;
        }
        // "A record in use has a run or a link."
        if !(peer.has_run() || peer.has_link()) || !peer.run_sound(&header) || !peer.link_sound(&header) {
            return None;
        }
        addresses[in_use] = address;
        in_use += 1;
        open += u16::from(peer.has_run());
        good += u16::from(peer.has_good_link());
    }
    (in_use == usize::from(get16(head, 2)) && open == header.open).then_some((header, good))
}

/// The number of good links that a header says, unless "no sound table starts with" it: all that can be told without the records, and
/// counts that records can have.
pub fn good_links<const R: usize>(head: &[u8; HEADER]) -> Option<u16> {
    let (slots, in_use, open, good) = (get16(head, 0), get16(head, 2), get16(head, 4), get16(head, GOOD_AT));
    sound_header::<R>(head, usize::from(slots))?;
    let possible = (1..=Form::<R>::SLOTS).contains(&usize::from(slots)) && in_use <= slots && open <= in_use && good <= in_use;
    possible.then_some(good)
}

/// Whether an address is among these. No early way out, as in a zero test.
fn among(addresses: &[u64], address: u64) -> bool {
    addresses.iter().fold(false, |any, &other| any | (other == address))
}

/// "Header, 32 octets": all of it that can be told without the records.
fn sound_header<const R: usize>(head: &[u8; HEADER], slots: usize) -> Option<Header> {
    let own = pack(head[16..].first_chunk().unwrap());
    let groups = Groups::in_header(head);
    let threshold = get16(head, 28);
    let pace = Pace::of(get16(head, PERIOD_AT), head[SYNC_LIMIT_AT])?;
    let right = usize::from(get16(head, 0)) == slots
        && usize::from(get16(head, RECORD_SIZE_AT)) == R
        && usize::from(get16(head, 8)) == HEADER
        && get16(head, 10) == 0
        && individual(own)
        && groups.right::<R>()
        && threshold <= HIGHEST_THRESHOLD;
    right.then_some(Header { own, groups, threshold, open: get16(head, 4), pace })
}

/// The slot of the record with this address, a usable one.
pub fn find<const R: usize>(table: &[u8], address: u64) -> Option<usize> {
    slots::<R>(table).iter().position(|octets| pack(Peer(octets).address()) == address)
}

/// "A new peer takes the free slot nearest the end."
pub fn last_free<const R: usize>(table: &[u8]) -> Option<usize> {
    slots::<R>(table).iter().rposition(|octets| !Peer(octets).in_use())
}

/// What a record adds to the header's three counts.
#[derive(Clone, Copy, PartialEq)]
pub struct Standing {
    pub in_use: bool,
    pub open: bool,
    pub good: bool,
}

/// Keeps "slots in use", "Open, the records whose run is Committed or Confirmed" and "the number of finished links with a clear mark"
/// true.
pub fn recount(table: &mut [u8], before: Standing, after: Standing) {
    let in_use = get16(table, 2) + u16::from(after.in_use) - u16::from(before.in_use);
    let open = get16(table, 4) + u16::from(after.open) - u16::from(before.open);
    let good = get16(table, GOOD_AT) + u16::from(after.good) - u16::from(before.good);
    put16(table, 2, in_use);
    put16(table, 4, open);
    put16(table, GOOD_AT, good);
}
