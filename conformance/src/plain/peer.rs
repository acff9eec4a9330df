//! One record of the table, where it stands: its fields and its form.

use core::ops::Deref;

use super::form::{Form, NARROW, WIDE};
use super::frame::{commit_len, scalar_len};
use super::octets::{all_zero, get16, get32, put16, put32, Address};
use super::table::{Header, TOKEN};

/// Where the fields of a record stand, up to its first commit: the same in both forms.
pub mod at {
    pub const IN_USE: usize = 0;
    pub const ADDRESS: usize = 1;
    pub const STATE: usize = 7;
    pub const SYNC: usize = 8;
    pub const REJECTED: usize = 9;
    pub const SC: usize = 10;
    pub const GROUP: usize = 12;
    pub const TOKEN_LEN: usize = 14;
    pub const T0: usize = 16;
    pub const OWN: usize = 20;
}

/// Where the others stand in a record of `R` octets: "fields after a commit move up in their order".
pub struct At<const R: usize>;

impl<const R: usize> At<R> {
    pub const PEER: usize = at::OWN + Form::<R>::COMMIT;
    pub const TOKEN: usize = Self::PEER + Form::<R>::COMMIT;
    pub const LINK: usize = Self::TOKEN + TOKEN;
    pub const SUPERSEDED: usize = Self::LINK + 1;
    pub const LINK_SYNC: usize = Self::LINK + 2;
    pub const LINK_PAD: usize = Self::LINK + 3;
    pub const LINK_GROUP: usize = Self::LINK + 4;
    pub const RC: usize = Self::LINK + 6;
    pub const T1: usize = Self::LINK + 8;
    pub const LINK_OWN: usize = Self::LINK + 12;
    pub const LINK_PEER: usize = Self::LINK_OWN + Form::<R>::COMMIT;
    pub const END: usize = Self::LINK_PEER + Form::<R>::COMMIT;
}

const _: () = assert!(At::<NARROW>::END == NARROW && At::<WIDE>::END == WIDE);

/// The state of a run.
#[derive(Clone, Copy, Debug, PartialEq)]
pub enum State {
    Nothing,
    Committed,
    Confirmed,
}

/// A record, lent to be read (`&[u8; R]`) or changed (`&mut [u8; R]`).
pub struct Peer<T>(pub T);

impl<const R: usize, T: Deref<Target = [u8; R]>> Peer<T> {
    pub fn in_use(&self) -> bool {
        self.0[at::IN_USE] != 0
    }

    pub fn address(&self) -> &Address {
        self.0[at::ADDRESS..].first_chunk().unwrap()
    }

    pub fn state(&self) -> State {
        match self.0[at::STATE] {
            0 => State::Nothing,
            1 => State::Committed,
            _ => State::Confirmed,
        }
    }

    pub fn has_run(&self) -> bool {
        self.0[at::STATE] != 0
    }

    pub fn sync(&self) -> u8 {
        self.0[at::SYNC]
    }

    pub fn rejected(&self) -> u8 {
        self.0[at::REJECTED]
    }

    pub fn sc(&self) -> u16 {
        get16(&*self.0, at::SC)
    }

    pub fn group(&self) -> u16 {
        get16(&*self.0, at::GROUP)
    }

    pub fn t0(&self) -> u32 {
        get32(&*self.0, at::T0)
    }

    /// Scalar and element of the run's own commit, without the zeros behind.
    pub fn own_commit(&self) -> &[u8] {
        &self.0[at::OWN..at::OWN + commit_len(self.group())]
    }

    pub fn token(&self) -> &[u8] {
        let length = usize::from(get16(&*self.0, at::TOKEN_LEN));
        &self.0[At::<R>::TOKEN..At::<R>::TOKEN + length]
    }

    pub fn has_link(&self) -> bool {
        self.0[At::<R>::LINK] != 0
    }

    pub fn superseded(&self) -> bool {
        self.0[At::<R>::SUPERSEDED] != 0
    }

    /// A good link: a finished one "with a clear mark".
    pub fn has_good_link(&self) -> bool {
        self.has_link() && !self.superseded()
    }

    pub fn link_sync(&self) -> u8 {
        self.0[At::<R>::LINK_SYNC]
    }

    pub fn link_group(&self) -> u16 {
        get16(&*self.0, At::<R>::LINK_GROUP)
    }

    pub fn rc(&self) -> u16 {
        get16(&*self.0, At::<R>::RC)
    }

    pub fn t1(&self) -> u32 {
        get32(&*self.0, At::<R>::T1)
    }

    pub fn link_peer(&self) -> &[u8] {
        &self.0[At::<R>::LINK_PEER..]
    }

    /// The octets of the run as the form of the table has them.
    pub fn run_sound(&self, header: &Header) -> bool {
        let (octets, groups) = (&*self.0, &header.groups);
        let state = octets[at::STATE];
        if state == 0 {
            return all_zero(&octets[at::STATE..At::<R>::LINK]);
        }
        let (group, sync, rejected, sc) = (self.group(), self.sync(), self.rejected(), self.sc());
        let token = usize::from(get16(octets, at::TOKEN_LEN));
        if state > 2 || sync > header.pace.highest_sync() || !groups.lists(group) || token > TOKEN {
            return false;
        }
        let commit = commit_len(group);
        all_zero(&octets[at::OWN + commit..At::<R>::PEER])
            && all_zero(&octets[At::<R>::TOKEN + token..At::<R>::LINK])
            && if state == 1 {
                // "Committed only, never the run's own"; "(zero in Committed)".
                let allowed = ((1 << groups.count) - 1) & !(1 << groups.place(group));
                rejected & !allowed == 0 && sc == 0 && all_zero(&octets[At::<R>::PEER..At::<R>::TOKEN])
            } else {
                // "Sc (Sync + 1 in Confirmed, else 0)".
                rejected == 0 && sc == u16::from(sync) + 1 && all_zero(&octets[At::<R>::PEER + commit..At::<R>::TOKEN])
            }
    }

    /// The octets of the link as the form of the table has them.
    pub fn link_sound(&self, header: &Header) -> bool {
        let octets = &*self.0;
        if octets[At::<R>::LINK] == 0 {
            return all_zero(&octets[At::<R>::LINK..]);
        }
        let group = self.link_group();
        if octets[At::<R>::LINK] > 1
            || octets[At::<R>::SUPERSEDED] > 1
            || octets[At::<R>::LINK_SYNC] > header.pace.highest_sync()
            || octets[At::<R>::LINK_PAD] != 0
            || !header.groups.lists(group)
        {
            return false;
        }
        let commit = commit_len(group);
        all_zero(&octets[At::<R>::LINK_OWN + commit..At::<R>::LINK_PEER]) && all_zero(&octets[At::<R>::LINK_PEER + commit..])
    }
}

impl<const R: usize> Peer<&mut [u8; R]> {
    /// The record is in use by this address.
    pub fn seat(&mut self, address: &Address) {
        self.0[at::IN_USE] = 1;
        self.0[at::ADDRESS..at::STATE].copy_from_slice(address);
    }

    pub fn free(&mut self) {
        self.0.fill(0);
    }

    pub fn set_state(&mut self, state: State) {
        self.0[at::STATE] = state as u8;
    }

    pub fn set_sync(&mut self, sync: u8) {
        self.0[at::SYNC] = sync;
    }

    pub fn set_rejected(&mut self, rejected: u8) {
        self.0[at::REJECTED] = rejected;
    }

    pub fn set_sc(&mut self, sc: u16) {
        put16(self.0, at::SC, sc);
    }

    pub fn set_group(&mut self, group: u16) {
        put16(self.0, at::GROUP, group);
    }

    pub fn set_t0(&mut self, deadline: u32) {
        put32(self.0, at::T0, deadline);
    }

    pub fn set_own_commit(&mut self, commit: &[u8]) {
        store(&mut self.0[at::OWN..At::<R>::PEER], commit);
    }

    pub fn set_peer_commit(&mut self, commit: &[u8]) {
        store(&mut self.0[At::<R>::PEER..At::<R>::TOKEN], commit);
    }

    pub fn set_token(&mut self, token: &[u8]) {
        put16(self.0, at::TOKEN_LEN, token.len() as u16);
        store(&mut self.0[At::<R>::TOKEN..At::<R>::LINK], token);
    }

    /// "A run or link that ends in any way leaves its fields zero."
    pub fn end_run(&mut self) {
        self.0[at::STATE..At::<R>::LINK].fill(0);
    }

    /// The run's pair and Sync become the link's; the run is still there.
    pub fn link_run(&mut self, rc: u16, t1: u32) {
        let group = self.group();
        self.0[At::<R>::LINK] = 1;
        self.0[At::<R>::SUPERSEDED] = 0;
        self.0[At::<R>::LINK_SYNC] = self.0[at::SYNC];
        put16(self.0, At::<R>::LINK_GROUP, group);
        put16(self.0, At::<R>::RC, rc);
        put32(self.0, At::<R>::T1, t1);
        self.0.copy_within(at::OWN..At::<R>::TOKEN, At::<R>::LINK_OWN);
    }

    pub fn supersede(&mut self) {
        self.0[At::<R>::SUPERSEDED] = 1;
    }

    pub fn set_link_sync(&mut self, sync: u8) {
        self.0[At::<R>::LINK_SYNC] = sync;
    }

    pub fn set_rc(&mut self, rc: u16) {
        put16(self.0, At::<R>::RC, rc);
    }

    pub fn end_link(&mut self) {
        self.0[At::<R>::LINK..].fill(0);
    }
}

/// Writes a record of `R` octets as one of `T`: the same fields in the same order, a commit in the room that `T` has for it.
pub fn move_record<const R: usize, const T: usize>(source: &[u8; R], target: &mut [u8; T]) {
    target[..at::OWN].copy_from_slice(&source[..at::OWN]);
    move_commit(&source[at::OWN..At::<R>::PEER], &mut target[at::OWN..At::<T>::PEER]);
    move_commit(&source[At::<R>::PEER..At::<R>::TOKEN], &mut target[At::<T>::PEER..At::<T>::TOKEN]);
    target[At::<T>::TOKEN..At::<T>::LINK_OWN].copy_from_slice(&source[At::<R>::TOKEN..At::<R>::LINK_OWN]);
    move_commit(&source[At::<R>::LINK_OWN..At::<R>::LINK_PEER], &mut target[At::<T>::LINK_OWN..At::<T>::LINK_PEER]);
    move_commit(&source[At::<R>::LINK_PEER..], &mut target[At::<T>::LINK_PEER..]);
}

/// The commit with zeros behind it, or without those that have no room.
fn move_commit(source: &[u8], target: &mut [u8]) {
    let room = target.len().min(source.len());
    store(target, &source[..room]);
}

/// `octets`, then zeros: "each stored one starts from 144 zero octets", in the wide form from 198.
fn store(field: &mut [u8], octets: &[u8]) {
    let (front, tail) = field.split_at_mut(octets.len());
    front.copy_from_slice(octets);
    tail.fill(0);
}

/// Whether two commits of this group have the same scalar.
pub fn same_scalar(group: u16, a: &[u8], b: &[u8]) -> bool {
    a[..scalar_len(group)] == b[..scalar_len(group)]
}
