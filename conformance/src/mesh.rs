//! A model of another maker's mesh peer, such as hostapd's, as an end that a printer of ours meets.
//!
//! What it models: the states of 802.11's SAE with a period that does not grow, a Sync limit of 5, group 19 alone, and the one
//! habit in which it parts from the scope: a Commit that it gets in Confirmed is answered with a fresh commit, and the received one
//! replaces the stored one. A finished link that gets a Commit is dropped, and the Commit with it.
//! What it does not: tokens, a choice of groups, rejections, starting again by itself, and its own queue of frames.

use crate::air::{chip, End, Turn};
use crate::forms::{filled, Commit};
use crate::history::{Link, Pair};
use crate::plain::form::COMMIT;
use crate::plain::frame::{self, Body, Parts, CONFIRM, SUCCESS};
use crate::plain::octets::Address;
use crate::plain::rules::LINK_COUNTER;
use crate::plain::table::Groups;
use crate::together::Fault;

/// Milliseconds until it sends again.
const PERIOD: u64 = 1000;
/// Above so many resynchronizations it gives up.
const SYNC_LIMIT: u8 = 5;
const GROUP: u16 = 19;

#[derive(Clone, Copy, PartialEq)]
enum State {
    Nothing,
    Committed,
    Confirmed,
    Accepted,
}

pub struct Mesh {
    address: Address,
    password: u8,
    state: State,
    own: Commit,
    peer: Commit,
    sync: u8,
    /// The counter of its last Confirm, and the one last taken.
    sc: u16,
    rc: u16,
    deadline: Option<u64>,
    commits_made: u32,
}

impl Mesh {
    pub fn new(address: Address, password: u8) -> Mesh {
        let zeros = [0; COMMIT];
        Mesh { address, password, state: State::Nothing, own: zeros, peer: zeros, sync: 0, sc: 0, rc: 0, deadline: None, commits_made: 0 }
    }

    fn pair(&self) -> Pair {
        Pair { group: GROUP, own: self.own, peer: self.peer }
    }

    fn renew(&mut self) {
        self.own = filled(&chip::commit(&self.address, self.commits_made, GROUP));
        self.commits_made += 1;
    }

    fn commit(&self) -> Vec<u8> {
        written(&Parts { sequence: frame::COMMIT, status: SUCCESS, group: GROUP, counter: 0, token: &[], rest: &self.own[..96] })
    }

    /// A Confirm over its pair, with the next counter, or 65,535 once it has accepted.
    fn confirm(&mut self) -> Vec<u8> {
        self.sc = if self.state == State::Accepted { LINK_COUNTER } else { self.sc + 1 };
        let value = chip::value(self.password, &self.pair(), self.sc);
        written(&Parts { sequence: CONFIRM, status: SUCCESS, group: 0, counter: self.sc, token: &[], rest: &value })
    }

    fn wait(&mut self, now: u64) {
        self.deadline = Some(now + PERIOD);
    }

    /// Ends what it has: event 2 for a run, 3 for a link.
    fn end(&mut self) -> Turn {
        let event = if self.state == State::Accepted { 3 } else { 2 };
        *self = Mesh { commits_made: self.commits_made, ..Mesh::new(self.address, self.password) };
        Turn { event, frames: Vec::new() }
    }

    fn on_commit(&mut self, now: u64, commit: &[u8]) -> Turn {
        let fresh = match self.state {
            State::Accepted => return self.end(),
            State::Confirmed if self.sync > SYNC_LIMIT => return self.end(),
            State::Confirmed => {
                self.sync += 1;
                true
            }
            State::Nothing => true,
            State::Committed => {
                self.sync = 0;
                false
            }
        };
        if fresh {
            self.renew();
        }
        self.peer = filled(commit);
        self.state = State::Confirmed;
        self.wait(now);
        let mut frames = if fresh { vec![self.commit()] } else { Vec::new() };
        frames.push(self.confirm());
        Turn { event: 0, frames }
    }

    fn on_confirm(&mut self, now: u64, counter: u16, value: &[u8]) -> Turn {
        let right = chip::right(self.password, &self.pair(), counter, value);
        match self.state {
            State::Committed if self.sync > SYNC_LIMIT => self.end(),
            State::Committed => {
                self.sync += 1;
                self.wait(now);
                Turn { event: 0, frames: vec![self.commit()] }
            }
            State::Confirmed if right => {
                (self.state, self.rc, self.deadline) = (State::Accepted, counter, None);
                Turn { event: 1, frames: Vec::new() }
            }
            State::Accepted if counter > self.rc && counter != LINK_COUNTER && right => {
                if self.sync > SYNC_LIMIT {
                    return self.end();
                }
                self.sync += 1;
                self.rc = counter;
                Turn { event: 0, frames: vec![self.confirm()] }
            }
            _ => Turn::default(),
        }
    }
}

/// The body that is made of these parts.
pub fn written(parts: &Parts) -> Vec<u8> {
    let mut out = [0; 462];
    let length = parts.write(&mut out).expect("room for a frame");
    out[..length].to_vec()
}

impl End for Mesh {
    fn start(&mut self, now: u64) -> Result<Turn, Fault> {
        self.renew();
        self.state = State::Committed;
        self.wait(now);
        Ok(Turn { event: 0, frames: vec![self.commit()] })
    }

    fn receive(&mut self, now: u64, frame: &[u8]) -> Result<Turn, Fault> {
        Ok(match frame::read(frame, &Groups { count: 1, list: [GROUP, 0, 0] }) {
            Some(Body::Commit { commit, .. }) => self.on_commit(now, commit),
            Some(Body::Confirm { counter, .. }) => self.on_confirm(now, counter, &frame[frame::FRONT..frame::CONFIRM_LEN]),
            _ => Turn::default(),
        })
    }

    fn expire(&mut self, now: u64) -> Result<Turn, Fault> {
        if self.sync > SYNC_LIMIT {
            return Ok(self.end());
        }
        self.sync += 1;
        self.wait(now);
        let again = if self.state == State::Committed { self.commit() } else { self.confirm() };
        Ok(Turn { event: 0, frames: vec![again] })
    }

    /// It takes its time for every frame.
    fn asks_chip(&self, _: &[u8]) -> bool {
        true
    }

    fn deadline(&self) -> Option<u64> {
        self.deadline
    }

    fn link(&self) -> Option<Link> {
        (self.state == State::Accepted).then(|| Link { pair: self.pair(), marked: false })
    }
}
