//! Inputs at random: tables of either form, sound and with a fault, frames of every shape, calls with right and damaged arguments.
//! What they are made from is drawn from a small pool, so that equal commits, known peers and near deadlines are common.

use crate::faults::header_fault;
use crate::forms::{pace_of, records, recount, Commit, Layout, Seen, FORMS};
use crate::interface::Call;
use crate::moves::move_from;
use crate::panel;
use crate::plain::form::{COMMIT, SLOTS};
use crate::plain::frame::{
    commit_len, scalar_len, COMMIT as COMMIT_FRAME, CONFIRM, CONFIRM_LEN, GROUP_REFUSED, LONGEST, TOKEN_REQUIRED, VALUE,
};
use crate::plain::octets::{get16, put16, put32, Address};
use crate::plain::peer::at;
use crate::plain::table::{Groups, Settings, GOOD_AT, HEADER, HIGHEST_THRESHOLD, TOKEN};
use crate::random::Random;

/// What tables and calls are made from.
pub struct Pool {
    pub own: Address,
    /// The form of the tables that are made, and of the fresh commits.
    pub form: &'static Layout,
    pub groups: Groups,
    pub addresses: Vec<Address>,
    commits: Vec<Commit>,
    tokens: Vec<[u8; 32]>,
    pub time: u32,
    /// Of a hundred arguments, how many are damaged.
    pub damage: usize,
}

impl Pool {
    /// For a form at random.
    pub fn new(random: &mut Random) -> Pool {
        let form = *random.pick(&FORMS);
        Pool::of(random, form)
    }

    pub fn of(random: &mut Random, form: &'static Layout) -> Pool {
        let own = individual(random);
        let mut commits: Vec<Commit> = (0..3).map(|_| random.array()).collect();
        // In each group one with the scalar of another, one with its element; one that differs at the end of a scalar or element; one of zeros.
        for scalar in [19, 20, 21].map(scalar_len) {
            let mut like = commits[0];
            random.fill(&mut like[scalar..]);
            commits.push(like);
            let mut like = commits[0];
            random.fill(&mut like[..scalar]);
            commits.push(like);
        }
        let mut like = commits[0];
        let group = *random.pick(&[19, 20, 21]);
        like[*random.pick(&[scalar_len(group), commit_len(group)]) - 1] ^= 1;
        commits.push(like);
        commits.push([0; COMMIT]);
        let mut tokens: Vec<[u8; 32]> = (0..2).map(|_| random.array()).collect();
        let mut like = tokens[0];
        like[random.below(32)] ^= 1 << random.below(8);
        tokens.push(like);
        Pool {
            own,
            form,
            groups: *random.pick(form.lists()),
            addresses: addresses(random, own),
            commits,
            tokens,
            time: [0, u32::MAX - 60, 1 << 31, random.number32()][random.below(4)],
            damage: *random.pick(&[0, 0, 1, 5, 30]),
        }
    }

    pub fn with_damage(self, damage: usize) -> Pool {
        Pool { damage, ..self }
    }

    fn commit(&self, random: &mut Random, group: u16) -> Vec<u8> {
        random.pick(&self.commits)[..commit_len(group)].to_vec()
    }

    fn stored(&self, random: &mut Random, group: u16) -> Vec<u8> {
        let mut stored = self.commit(random, group);
        stored.resize(self.form.commit, 0);
        stored
    }

    /// A group that the table lists.
    fn listed(&self, random: &mut Random) -> u16 {
        *random.pick(self.groups.listed())
    }

    fn damaged(&self, random: &mut Random) -> bool {
        random.percent(self.damage)
    }

    /// A reading of the clock near a deadline of the table, or anywhere.
    fn now(&self, random: &mut Random, table: &[u8]) -> u32 {
        let near = random.below(5) as u32;
        match random.below(8) {
            0 => random.number32(),
            1..=3 => self.time.wrapping_add(random.below(6000) as u32),
            4 => self.deadline(random, table).wrapping_add(near).wrapping_sub(2),
            5 => self.deadline(random, table).wrapping_add(near + (1 << 31)).wrapping_sub(2),
            _ => self.deadline(random, table).wrapping_add(random.below(100) as u32),
        }
    }

    fn deadline(&self, random: &mut Random, table: &[u8]) -> u32 {
        match some_record(random, table) {
            Some(peer) => *random.pick(&[peer.t0(), peer.t1()]),
            None => self.time,
        }
    }

    /// The address of a record, one without a record, or one that is not usable.
    fn address(&self, random: &mut Random, table: &[u8]) -> Address {
        if self.damaged(random) {
            let mut address = *random.pick(&self.addresses);
            match random.below(4) {
                0 => address = self.own,
                1 => address = [0; 6],
                2 => address[0] |= 1,
                _ => address[random.below(6)] ^= 1 << random.below(8),
            }
            return address;
        }
        match some_record(random, table) {
            Some(peer) if random.percent(75) => peer.address(),
            _ => *random.pick(&self.addresses),
        }
    }

    fn fresh(&self, random: &mut Random) -> Vec<u8> {
        let mut fresh: Vec<u8> = self.groups.listed().iter().flat_map(|&group| self.stored(random, group)).collect();
        if self.damaged(random) {
            let parts = random.within(1, 3);
            match random.below(6) {
                0 => fresh.clear(),
                1 => fresh.truncate(fresh.len() - 1),
                2 => fresh.push(0),
                3 => fresh.resize(parts * self.form.commit, 0),
                4 => fresh = other_parts(&fresh, self.form),
                _ => {
                    let place = random.below(fresh.len());
                    fresh[place] ^= 1 << random.below(8);
                }
            }
        }
        fresh
    }

    fn expected(&self, random: &mut Random) -> Vec<u8> {
        let mut expected = random.pick(&self.tokens).to_vec();
        if self.damaged(random) {
            expected.resize(*random.pick(&[0, 1, 31, 33, 64]), 7);
        }
        expected
    }

    fn verified(&self, random: &mut Random) -> u8 {
        match self.damaged(random) {
            true => *random.pick(&[2, 3, 128, 255]),
            false => u8::from(random.percent(70)),
        }
    }

    fn token(&self, random: &mut Random) -> Vec<u8> {
        match random.below(20) {
            0..=6 => Vec::new(),
            7..=14 => random.pick(&self.tokens).to_vec(),
            15 => {
                let length = random.within(1, 31);
                random.pick(&self.tokens)[..length].to_vec()
            }
            16 => [&random.pick(&self.tokens)[..], &[0]].concat(),
            17 => vec![7; *random.pick(&[1, 31, 33, 48, 255, TOKEN])],
            _ => {
                let length = random.within(0, TOKEN);
                random.octets(length)
            }
        }
    }

    /// A frame of any shape, or of none.
    pub fn frame(&self, random: &mut Random, table: &[u8]) -> Vec<u8> {
        let group = match random.below(20) {
            0 => *random.pick(&[0, 18, 22, 65535, 19 + 256, 21 + 256, 19 * 256]),
            1..=2 => *random.pick(&[19, 20, 21]),
            _ => self.listed(random),
        };
        let mut frame = match random.below(20) {
            0..=8 => front(COMMIT_FRAME, 0, group, [self.token(random), self.commit(random, group)].concat()),
            9..=12 => front(CONFIRM, 0, self.counter(random, table), [random.octets(VALUE), elements(random)].concat()),
            13..=14 => {
                let token = self.token(random);
                front(COMMIT_FRAME, TOKEN_REQUIRED, group, if token.is_empty() { vec![7] } else { token })
            }
            15..=16 => front(COMMIT_FRAME, GROUP_REFUSED, group, Vec::new()),
            17 => {
                let rest = random.below(500);
                front(COMMIT_FRAME, 0, *random.pick(&[0, 18, 21, 22, 275, 65535]), random.octets(rest))
            }
            _ => {
                let rest = random.below(60);
                front(
                    *random.pick(&[1, 2]),
                    *random.pick(&[1, 13, 52, 75, 78, 255, 256, 76 * 256, 77 * 256, 65535]),
                    group,
                    random.octets(rest),
                )
            }
        };
        if self.damaged(random) {
            damage_frame(random, &mut frame);
        }
        frame
    }

    /// A counter near the Rc of a record, or at the edges.
    fn counter(&self, random: &mut Random, table: &[u8]) -> u16 {
        match some_record(random, table) {
            Some(peer) if random.percent(60) => peer.rc().wrapping_add(*random.pick(&[0, 1, 2, 65535])),
            _ => *random.pick(&[0, 1, 2, 3, 255, 256, 65534, 65535]),
        }
    }

    /// A call of any kind on this table.
    pub fn call(&self, random: &mut Random, table: &[u8]) -> Call {
        match random.below(48) {
            0 => self.initialize(random),
            1..=4 => Call::Initiate { address: self.address(random, table), now: self.now(random, table), fresh: self.fresh(random) },
            5 => Call::Kill { address: self.address(random, table) },
            6..=11 => Call::Expire { now: self.now(random, table) },
            12..=14 => self.write_parts(random),
            15..=17 => self.write_record(random, table),
            18..=20 => Call::Read { frame: self.frame(random, table) },
            21..=22 => Call::NextDeadline { now: self.now(random, table) },
            23 => Call::Find { address: self.address(random, table) },
            24..=25 => Call::GoodLinks { header: self.header(random, table) },
            26 => Call::Fill,
            27..=28 => self.some_move(random, table),
            _ => self.receive(random, table),
        }
    }

    /// A move: mostly the one out of the table's form, to a target of the length that it has in the other.
    pub fn some_move(&self, random: &mut Random, table: &[u8]) -> Call {
        let form = Layout::of(table).unwrap_or(self.form);
        let from = if random.percent(85) { form } else { form.other() };
        let slots = table.len().saturating_sub(HEADER) / form.record;
        let (to, right) = (from.other(), from.other().length(slots));
        let one_less = to.length(slots.saturating_sub(1));
        let wrong = [0, 1, 31, HEADER, right - 1, right + 1, one_less, to.length(slots + 1), from.length(slots), table.len()];
        let length = if random.percent(75) { right } else { *random.pick(&wrong) };
        let any = random.octet();
        move_from(from, length, *random.pick(&[0, 0x5a, 0xff, any]))
    }

    pub fn receive(&self, random: &mut Random, table: &[u8]) -> Call {
        Call::Receive {
            address: self.address(random, table),
            now: self.now(random, table),
            frame: self.frame(random, table),
            fresh: self.fresh(random),
            expected: self.expected(random),
            verified: self.verified(random),
        }
    }

    pub fn initialize(&self, random: &mut Random) -> Call {
        let threshold = *random.pick(&[0, 1, 2, 5, HIGHEST_THRESHOLD]);
        let mut own = self.own;
        let mut settings = Settings { groups: self.groups, threshold, period: period(random), sync_limit: sync_limit(random) }.octets();
        if self.damaged(random) {
            match random.below(9) {
                0 => own = [0; 6],
                1 => own[0] |= 1,
                2 => settings[0] = *random.pick(&[0, 1, 2, 3, 4, 255]),
                3 => put16(&mut settings, *random.pick(&[2, 4, 6]), *random.pick(&[0, 18, 19, 20, 21, 22, 277])),
                4 => put16(&mut settings, 8, *random.pick(&[64, 65, 256, 320, 65535])),
                5 => settings[*random.pick(&[1, 13, 14, 15])] = random.octet(),
                6 => put16(&mut settings, 10, *random.pick(&WRONG_PERIODS)),
                7 => settings[12] = *random.pick(&WRONG_SYNC_LIMITS),
                _ => settings = random.array(),
            }
        }
        Call::Initialize { own, settings }
    }

    /// What the panel's question is asked of: the table's header, or one of another table; as it is or damaged.
    pub fn header(&self, random: &mut Random, table: &[u8]) -> Vec<u8> {
        let mut header = match random.below(3) {
            0 => panel::header(table).to_vec(),
            _ => self.possible_header(random),
        };
        if random.percent(40) && header.len() == HEADER {
            header_fault(random, &mut header);
        }
        if self.damaged(random) {
            let length = *random.pick(&[0, 1, 31, 33, 64, self.form.length(1)]);
            header.resize(length, 0);
        }
        header
    }

    /// A header that a sound table starts with: slots and counts at their ends and between.
    fn possible_header(&self, random: &mut Random) -> Vec<u8> {
        let settings = Settings { groups: self.groups, threshold: 0, period: period(random), sync_limit: sync_limit(random) };
        let any = random.within(1, self.form.slots);
        let slots = *random.pick(&[1, 2, any, self.form.slots]);
        let mut header = self.form.fresh_table(slots, &self.own, &settings)[..HEADER].to_vec();
        let up_to = |random: &mut Random, most: usize| *random.pick(&[0, most / 2, most.saturating_sub(1), most, most]);
        let in_use = up_to(random, slots);
        put16(&mut header, 2, in_use as u16);
        put16(&mut header, 4, up_to(random, in_use) as u16);
        put16(&mut header, GOOD_AT, up_to(random, in_use) as u16);
        header
    }

    fn write_parts(&self, random: &mut Random) -> Call {
        let mut group = if random.percent(10) { random.number16() } else { self.listed(random) };
        let (mut sequence, mut status, mut counter) = (COMMIT_FRAME, 0, 0);
        let (mut token, mut rest) = (Vec::new(), Vec::new());
        match random.below(4) {
            0 => (token, rest) = (self.token(random), self.commit(random, group)),
            1 => (status, token) = (TOKEN_REQUIRED, self.token(random)),
            2 => status = GROUP_REFUSED,
            _ => (sequence, group, counter, rest) = (CONFIRM, 0, random.number16(), random.octets(VALUE)),
        }
        if self.damage > 0 && random.percent(40) {
            match random.below(7) {
                0 => sequence = *random.pick(&[0, 1, 2, 3, 257, 258]),
                1 => status = *random.pick(&[0, 1, 52, 76, 77, 332, 65535]),
                2 => group = *random.pick(&[0, 19, 20, 21, 22, 277]),
                3 => counter = *random.pick(&[0, 1, 256, 65535]),
                4 => token = vec![9; *random.pick(&[0, 1, 32, 255, 256, 257, 300])],
                5 => rest.push(1),
                _ => {
                    rest.pop();
                }
            }
        }
        let length = 8 + token.len() + rest.len();
        Call::WriteParts { sequence, status, group, counter, token, rest, room: self.room(random, length) }
    }

    fn write_record(&self, random: &mut Random, table: &[u8]) -> Call {
        let sequence = if self.damaged(random) { *random.pick(&[0, 3, 257, 258, 65535]) } else { *random.pick(&[1, 2]) };
        let value = if self.damaged(random) { *random.pick(&[0, 31, 33]) } else { VALUE };
        let address = self.address(random, table);
        let length = match record_of(table, &address) {
            Some(peer) if sequence == 1 => 8 + peer.token_len() + commit_len(peer.group()),
            _ => 8 + VALUE,
        };
        Call::WriteRecord { address, sequence, value: random.octets(value), room: self.room(random, length) }
    }

    /// The length of an out buffer for a frame of this length.
    fn room(&self, random: &mut Random, length: usize) -> usize {
        match random.below(10) {
            0..=3 => length,
            4 => length - 1,
            5 => length + 1,
            6 => random.below(length + 1),
            _ => length + random.below(100),
        }
    }

    /// A table of the form, with anything in it that the form allows.
    pub fn sound_table(&self, random: &mut Random, slots: usize) -> Vec<u8> {
        let settings = Settings { groups: self.groups, threshold: 0, period: period(random), sync_limit: sync_limit(random) };
        let mut table = self.form.fresh_table(slots, &self.own, &settings);
        let highest_sync = pace_of(&table).expect("a right pace").highest_sync();
        let filled = *random.pick(&[0, 30, 60, 90, 100]);
        let mut addresses = self.addresses.clone();
        for octets in table[HEADER..].chunks_exact_mut(self.form.record) {
            if random.percent(filled) && !addresses.is_empty() {
                let address = addresses.swap_remove(random.below(addresses.len()));
                self.sound_record(random, octets, &address, highest_sync);
            }
        }
        recount(&mut table);
        let open = get16(&table, 4);
        let near = [open, open + 1, open.saturating_sub(1), 0, 5, HIGHEST_THRESHOLD];
        let threshold = (*random.pick(&near)).min(HIGHEST_THRESHOLD);
        put16(&mut table, 28, threshold);
        table
    }

    fn sound_record(&self, random: &mut Random, octets: &mut [u8], address: &Address, highest_sync: u8) {
        octets[at::IN_USE] = 1;
        octets[at::ADDRESS..at::STATE].copy_from_slice(address);
        let (state, link) = *random.pick(&[(0, true), (1, false), (2, false), (1, true), (2, true)]);
        if state != 0 {
            self.sound_run(random, octets, state, highest_sync);
        }
        if link {
            self.sound_link(random, octets, highest_sync);
        }
    }

    fn sound_run(&self, random: &mut Random, octets: &mut [u8], state: u8, highest_sync: u8) {
        let (form, group) = (self.form, self.listed(random));
        let sync = sync(random, highest_sync);
        octets[at::STATE] = state;
        octets[at::SYNC] = sync;
        put16(octets, at::GROUP, group);
        put32(octets, at::T0, self.time.wrapping_add(random.below(3000) as u32));
        octets[at::OWN..form.peer].copy_from_slice(&self.stored(random, group));
        let token = self.token(random);
        put16(octets, at::TOKEN_LEN, token.len() as u16);
        octets[form.token..][..token.len()].copy_from_slice(&token);
        if state == 1 {
            let others = ((1 << self.groups.count) - 1) & !(1 << self.groups.place(group));
            octets[at::REJECTED] = random.octet() & others;
        } else {
            put16(octets, at::SC, u16::from(sync) + 1);
            octets[form.peer..form.token].copy_from_slice(&self.stored(random, group));
        }
    }

    fn sound_link(&self, random: &mut Random, octets: &mut [u8], highest_sync: u8) {
        let (form, group) = (self.form, self.listed(random));
        octets[form.link] = 1;
        octets[form.superseded] = random.below(2) as u8;
        octets[form.link_sync] = sync(random, highest_sync);
        put16(octets, form.link_group, group);
        put16(octets, form.rc, *random.pick(&[0, 1, 2, 255, 256, 65534, 65535]));
        let t1 = self.time.wrapping_add(random.below(3000) as u32).wrapping_add(*random.pick(&[0, 86_400_000]));
        put32(octets, form.t1, t1);
        octets[form.link_own..form.link_peer].copy_from_slice(&self.stored(random, group));
        octets[form.link_peer..].copy_from_slice(&self.stored(random, group));
    }
}

/// Octets of the records in the shortest tables whose length both forms have: 5 slots of 864 octets, 4 of 1,080.
pub const SHARED: usize = 4320;

/// A number of slots: mostly few.
pub fn slots(random: &mut Random, form: &Layout) -> usize {
    match random.below(40) {
        0..=15 => 1,
        16..=25 => random.within(2, 4),
        26..=29 => SHARED / form.record,
        30..=37 => random.within(5, 12),
        38 => random.within(13, form.slots),
        _ => form.slots,
    }
}

/// A first period as settings and header have it: none, the ends, the factory's, or any between.
pub fn period(random: &mut Random) -> u16 {
    let any = random.within(10, 1000) as u16;
    *random.pick(&[0, 0, 10, Settings::PERIOD, 1000, any, any])
}

/// A Sync limit as they have it.
pub fn sync_limit(random: &mut Random) -> u8 {
    let any = random.within(1, 10) as u8;
    *random.pick(&[0, 0, 1, Settings::SYNC_LIMIT, 10, any, any])
}

/// First periods that are none: below 10, above 1,000, and some of which one octet alone, or the two the other way round, would be right.
pub const WRONG_PERIODS: [u16; 10] = [1, 5, 9, 1001, 1024, 1256, 10 << 8, 40 << 8, 40 + (1 << 15), 65535];

/// Sync limits that are none.
pub const WRONG_SYNC_LIMITS: [u8; 6] = [11, 12, 64, 128, 128 + 5, 255];

/// A Sync that is stored: none, one, and those at the limit.
fn sync(random: &mut Random, highest: u8) -> u8 {
    *random.pick(&[0, 1, highest.saturating_sub(2), highest - 1, highest])
}

/// Fresh commits of this form in parts as the other form has them.
pub fn other_parts(fresh: &[u8], form: &Layout) -> Vec<u8> {
    let cut = |part: &[u8]| part.iter().copied().chain([0; COMMIT]).take(form.other().commit).collect::<Vec<u8>>();
    fresh.chunks(form.commit).flat_map(cut).collect()
}

fn individual(random: &mut Random) -> Address {
    let mut address: Address = random.array();
    address[0] &= 0xfe;
    address[5] |= 1;
    address
}

/// More addresses than slots, all usable and unlike each other: neighbours of our own, and others that differ in one place.
fn addresses(random: &mut Random, own: Address) -> Vec<Address> {
    let mut addresses: Vec<Address> = Vec::new();
    let base = individual(random);
    while addresses.len() < SLOTS + 6 {
        let mut address = *random.pick(&[own, base, base]);
        let place = random.below(6);
        address[place] = address[place].wrapping_add(*random.pick(&[2, 4, 254, 128])).wrapping_add(random.octet() & 0xfe);
        if random.percent(30) {
            address = individual(random);
        }
        if address != own && address != [0; 6] && address[0] & 1 == 0 && !addresses.contains(&address) {
            addresses.push(address);
        }
    }
    addresses
}

/// The octets of a frame: algorithm, sequence, status, a field of two octets, the rest.
fn front(sequence: u16, status: u16, field: u16, rest: Vec<u8>) -> Vec<u8> {
    let mut frame = vec![0; 8];
    put16(&mut frame, 0, 3);
    put16(&mut frame, 2, sequence);
    put16(&mut frame, 4, status);
    put16(&mut frame, 6, field);
    frame.extend(rest);
    frame
}

/// What may follow a Confirm: mostly nothing or a few elements, at times as many as there is room for, up to the end or to one octet past it.
fn elements(random: &mut Random) -> Vec<u8> {
    let room = match random.below(10) {
        0..=5 => return Vec::new(),
        6..=8 => random.below(60),
        _ => random.within(LONGEST - CONFIRM_LEN - 1, LONGEST - CONFIRM_LEN + 1),
    };
    let mut elements = Vec::new();
    while elements.len() + 2 <= room {
        let most = (room - elements.len() - 2).min(255);
        let length = *random.pick(&[0, 1, most, most, most / 2]);
        elements.extend([random.octet(), length as u8]);
        elements.extend(random.octets(length));
    }
    elements
}

fn damage_frame(random: &mut Random, frame: &mut Vec<u8>) {
    match random.below(9) {
        0 => frame.truncate(*random.pick(&[0, 1, 5, 6, 7, 8])),
        1 => frame.truncate(frame.len() - 1),
        2 => frame.push(random.octet()),
        3 => frame.resize(random.within(0, 500), 3),
        4 => frame.resize(
            *random.pick(&[103, 104, 360, 361, 151, 152, 408, 409, 205, 206, 462, 463, 39, 40, 41, 42, 43, 264, 265, 2304, 2305, 3000]),
            3,
        ),
        5 => frame[0] = *random.pick(&[0, 2, 4, 255]),
        6 => frame[1] = 1,
        7 => put16(frame, 2, *random.pick(&[0, 3, 257, 258, 512])),
        _ => {
            let place = random.below(frame.len());
            frame[place] ^= 1 << random.below(8);
        }
    }
}

fn some_record<'a>(random: &mut Random, table: &'a [u8]) -> Option<Seen<'a>> {
    match records(table).len() {
        0 => None,
        slots => records(table).nth(random.below(slots)).filter(Seen::in_use),
    }
}

fn record_of<'a>(table: &'a [u8], address: &Address) -> Option<Seen<'a>> {
    records(table).find(|peer| peer.in_use() && peer.address() == *address)
}
