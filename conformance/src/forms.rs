//! The two forms of a table as values, for what makes tables and looks into them: offsets, lists of groups, records in sight.

use crate::plain::form::{self, Form, COMMIT};
use crate::plain::octets::{get16, get32, put16, Address};
use crate::plain::peer::{at, At, State};
use crate::plain::table::{self, Groups, Pace, Settings, GOOD_AT, HEADER, PERIOD_AT, SYNC_LIMIT_AT};

/// A commit as it is stored, with the zeros of the wide form: so those of the two forms compare with filling zeros aside.
pub type Commit = [u8; COMMIT];

/// What a form holds, and where the fields behind a record's first commit stand in it.
#[derive(PartialEq)]
pub struct Layout {
    pub name: &'static str,
    /// Octets of a record: the form is told by them.
    pub record: usize,
    pub commit: usize,
    pub slots: usize,
    /// How many of `LISTS` it can have.
    lists: usize,
    pub peer: usize,
    pub token: usize,
    pub link: usize,
    pub superseded: usize,
    pub link_sync: usize,
    pub link_pad: usize,
    pub link_group: usize,
    pub rc: usize,
    pub t1: usize,
    pub link_own: usize,
    pub link_peer: usize,
}

pub static NARROW: Layout = layout::<{ form::NARROW }>("narrow", 4);
pub static WIDE: Layout = layout::<{ form::WIDE }>("wide", 15);
pub static FORMS: [&Layout; 2] = [&NARROW, &WIDE];

/// Every list of groups, those that both forms can have first.
pub static LISTS: [Groups; 15] = [
    Groups { count: 1, list: [19, 0, 0] },
    Groups { count: 1, list: [20, 0, 0] },
    Groups { count: 2, list: [19, 20, 0] },
    Groups { count: 2, list: [20, 19, 0] },
    Groups { count: 1, list: [21, 0, 0] },
    Groups { count: 2, list: [19, 21, 0] },
    Groups { count: 2, list: [20, 21, 0] },
    Groups { count: 2, list: [21, 19, 0] },
    Groups { count: 2, list: [21, 20, 0] },
    Groups { count: 3, list: [19, 20, 21] },
    Groups { count: 3, list: [19, 21, 20] },
    Groups { count: 3, list: [20, 19, 21] },
    Groups { count: 3, list: [20, 21, 19] },
    Groups { count: 3, list: [21, 19, 20] },
    Groups { count: 3, list: [21, 20, 19] },
];

/// All groups that a table can list: whoever reads with it knows every frame of ours.
pub const ALL: Groups = Groups { count: 3, list: [19, 20, 21] };

const fn layout<const R: usize>(name: &'static str, lists: usize) -> Layout {
    Layout {
        name,
        record: R,
        commit: Form::<R>::COMMIT,
        slots: Form::<R>::SLOTS,
        lists,
        peer: At::<R>::PEER,
        token: At::<R>::TOKEN,
        link: At::<R>::LINK,
        superseded: At::<R>::SUPERSEDED,
        link_sync: At::<R>::LINK_SYNC,
        link_pad: At::<R>::LINK_PAD,
        link_group: At::<R>::LINK_GROUP,
        rc: At::<R>::RC,
        t1: At::<R>::T1,
        link_own: At::<R>::LINK_OWN,
        link_peer: At::<R>::LINK_PEER,
    }
}

impl Layout {
    /// The form that a table's record size tells, whatever else is in it.
    pub fn of(table: &[u8]) -> Option<&'static Layout> {
        let size = table::record_size(table)?;
        FORMS.into_iter().find(|form| form.record == size)
    }

    /// The other form.
    pub fn other(&self) -> &'static Layout {
        if self.record == NARROW.record {
            &WIDE
        } else {
            &NARROW
        }
    }

    /// The lists of groups that a table of this form can have.
    pub fn lists(&self) -> &'static [Groups] {
        &LISTS[..self.lists]
    }

    /// The length of a table with so many slots.
    pub fn length(&self, slots: usize) -> usize {
        HEADER + self.record * slots
    }

    /// The number of slots for which a table has this length.
    pub fn slots_for(&self, length: usize) -> Option<usize> {
        match self.record {
            form::NARROW => table::slots_for::<{ form::NARROW }>(length),
            _ => table::slots_for::<{ form::WIDE }>(length),
        }
    }

    /// A table with every slot free: of the wide form as set up makes it, of the narrow one as it made it before.
    pub fn fresh_table(&self, slots: usize, own: &Address, settings: &Settings) -> Vec<u8> {
        let mut table = vec![0; self.length(slots)];
        match self.record {
            form::NARROW => table::initialize::<{ form::NARROW }>(&mut table, slots, own, settings),
            _ => table::initialize::<{ form::WIDE }>(&mut table, slots, own, settings),
        }
        table
    }

    /// Whether fresh commits for these groups are right.
    pub fn fresh_right(&self, groups: &Groups, fresh: &[u8]) -> bool {
        match self.record {
            form::NARROW => groups.fresh_right::<{ form::NARROW }>(fresh),
            _ => groups.fresh_right::<{ form::WIDE }>(fresh),
        }
    }

    /// The part of fresh commits for a listed group.
    pub fn fresh_part<'a>(&self, groups: &Groups, fresh: &'a [u8], group: u16) -> &'a [u8] {
        &fresh[self.commit * groups.place(group)..][..self.commit]
    }
}

/// A commit, filled with zeros.
pub fn filled(commit: &[u8]) -> Commit {
    let mut filled = [0; COMMIT];
    filled[..commit.len()].copy_from_slice(commit);
    filled
}

/// A record in sight.
#[derive(Clone, Copy)]
pub struct Seen<'a> {
    pub form: &'static Layout,
    pub octets: &'a [u8],
}

/// The slots of a table, none if no form has such records or such a length.
pub fn records(table: &[u8]) -> impl ExactSizeIterator<Item = Seen<'_>> {
    let form = Layout::of(table).filter(|form| form.slots_for(table.len()).is_some());
    let (form, octets) = form.map_or((&NARROW, &table[..0]), |form| (form, &table[HEADER..]));
    octets.chunks_exact(form.record).map(move |octets| Seen { form, octets })
}

/// Puts the counts of a table's records into its header: in use, Open, good links.
pub fn recount(table: &mut [u8]) {
    let count = |test: fn(&Seen) -> bool| records(table).filter(test).count() as u16;
    let (in_use, open, good) = (count(|peer| peer.in_use()), count(|peer| peer.has_run()), count(|peer| peer.has_good_link()));
    put16(table, 2, in_use);
    put16(table, 4, open);
    put16(table, GOOD_AT, good);
}

/// The groups that a table's header lists.
pub fn groups_of(table: &[u8]) -> Groups {
    Groups::in_header(table.first_chunk().expect("a header"))
}

/// How the runs of a table repeat, if its header's two fields are right.
pub fn pace_of(table: &[u8]) -> Option<Pace> {
    Pace::of(get16(table, PERIOD_AT), table[SYNC_LIMIT_AT])
}

impl Seen<'_> {
    pub fn in_use(&self) -> bool {
        self.octets[at::IN_USE] != 0
    }

    pub fn address(&self) -> Address {
        *self.octets[at::ADDRESS..].first_chunk().expect("six octets")
    }

    pub fn state(&self) -> State {
        [State::Nothing, State::Committed, State::Confirmed][usize::from(self.octets[at::STATE].min(2))]
    }

    pub fn has_run(&self) -> bool {
        self.octets[at::STATE] != 0
    }

    pub fn sync(&self) -> u8 {
        self.octets[at::SYNC]
    }

    pub fn group(&self) -> u16 {
        get16(self.octets, at::GROUP)
    }

    pub fn t0(&self) -> u32 {
        get32(self.octets, at::T0)
    }

    /// What the record says of its token's length; in an unsound one it may be above 256.
    pub fn token_len(&self) -> usize {
        usize::from(get16(self.octets, at::TOKEN_LEN))
    }

    pub fn token(&self) -> &[u8] {
        &self.octets[self.form.token..][..self.token_len()]
    }

    pub fn own(&self) -> Commit {
        self.commit(at::OWN)
    }

    pub fn peer(&self) -> Commit {
        self.commit(self.form.peer)
    }

    pub fn has_link(&self) -> bool {
        self.octets[self.form.link] != 0
    }

    pub fn superseded(&self) -> bool {
        self.octets[self.form.superseded] != 0
    }

    pub fn has_good_link(&self) -> bool {
        self.has_link() && !self.superseded()
    }

    pub fn link_sync(&self) -> u8 {
        self.octets[self.form.link_sync]
    }

    pub fn link_group(&self) -> u16 {
        get16(self.octets, self.form.link_group)
    }

    pub fn rc(&self) -> u16 {
        get16(self.octets, self.form.rc)
    }

    pub fn t1(&self) -> u32 {
        get32(self.octets, self.form.t1)
    }

    pub fn link_own(&self) -> Commit {
        self.commit(self.form.link_own)
    }

    pub fn link_peer(&self) -> Commit {
        self.commit(self.form.link_peer)
    }

    fn commit(&self, at: usize) -> Commit {
        filled(&self.octets[at..at + self.form.commit])
    }
}
