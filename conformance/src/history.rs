//! Demand 3's history of one printer, from the answers of its calls alone.

use std::collections::{BTreeMap, BTreeSet};

use crate::forms::{filled, groups_of, pace_of, records, Commit, Layout};
use crate::interface::{Call, ANSWER};
use crate::plain::frame::{self, Body};
use crate::plain::octets::{get16, Address};

/// A pair: group, own commit, peer commit. It is the same whatever the form of the table that it comes from.
#[derive(Clone, Copy, Debug, PartialEq, Eq, PartialOrd, Ord)]
pub struct Pair {
    pub group: u16,
    pub own: Commit,
    pub peer: Commit,
}

impl Pair {
    /// "The same pair at the other end has own and peer exchanged."
    pub fn exchanged(&self) -> Pair {
        Pair { group: self.group, own: self.peer, peer: self.own }
    }
}

/// A run: the Sync limit of the printer's table when it began, whether its pair stands, and its repeats before and after that.
#[derive(Clone, Copy, Debug)]
pub struct Run {
    pub limit: u8,
    pub stands: bool,
    pub repeats: [u32; 2],
}

impl Run {
    fn begun(limit: u8) -> Run {
        Run { limit, stands: false, repeats: [0; 2] }
    }

    /// The most repeats before its pair stands, and as many after: "at most limit + 1".
    fn most(&self) -> u32 {
        u32::from(self.limit) + 1
    }
}

/// A finished link and its mark.
#[derive(Clone, Copy, Debug, PartialEq)]
pub struct Link {
    pub pair: Pair,
    pub marked: bool,
}

/// What the answers said about one address.
#[derive(Clone, Default)]
pub struct Peering {
    last_fresh: Option<(u16, Commit)>,
    pub last_pair: Option<Pair>,
    pub run: Option<Run>,
    pub link: Option<Link>,
    pub formed: BTreeSet<Pair>,
}

impl Peering {
    /// The pair that a Confirm meets: "a run's pair, or without a run a link's".
    pub fn met(&self) -> Option<Pair> {
        match (self.run, self.link) {
            (Some(run), _) => self.last_pair.filter(|_| run.stands),
            (None, link) => link.map(|link| link.pair),
        }
    }
}

/// A frame that an answer has: sequence, status, group, counter.
#[derive(Clone, Copy, Debug, PartialEq)]
pub struct Sent {
    pub sequence: u16,
    pub status: u16,
    pub group: u16,
    pub counter: u16,
}

/// An answer's 28 octets, read.
pub struct Answer {
    pub none_due: bool,
    pub event: u8,
    pub fresh_group: u16,
    pub address: Address,
    pub frames: Vec<Sent>,
}

impl Answer {
    pub fn read(octets: &[u8; ANSWER]) -> Answer {
        let frame = |at: usize| Sent {
            sequence: get16(octets, at),
            status: get16(octets, at + 2),
            group: get16(octets, at + 4),
            counter: get16(octets, at + 6),
        };
        Answer {
            none_due: octets[0] == 1,
            event: octets[1],
            fresh_group: get16(octets, 2),
            address: octets[4..10].try_into().expect("six octets"),
            frames: (0..usize::from(octets[10])).map(|place| frame(12 + 8 * place)).collect(),
        }
    }

    /// "A frame call that answers a Confirm with counter 1 forms a pair."
    fn forms(&self) -> bool {
        self.frames.iter().any(|sent| sent.sequence == frame::CONFIRM && sent.counter == 1)
    }
}

/// One printer's history.
#[derive(Default)]
pub struct History {
    pub peers: BTreeMap<Address, Peering>,
}

impl History {
    /// Takes in a call that was not refused and the table that it left. Answers a breach of the bound on repeats.
    pub fn take(&mut self, call: &Call, answer: &Answer, table: &[u8]) -> Result<(), String> {
        if answer.none_due {
            return Ok(());
        }
        if let Call::Initialize { .. } = call {
            // "ends with ... a set up"; "until event 3, a kill, a set up or another event 1"
            self.peers.values_mut().for_each(|peer| (peer.run, peer.link) = (None, None));
            return Ok(());
        }
        let form = Layout::of(table).ok_or("a table of no form")?;
        let groups = groups_of(table);
        let limit = pace_of(table).ok_or("a table without a right pace")?.sync_limit;
        let peer = self.peers.entry(answer.address).or_default();
        // "The commit used afresh is the stock's for the stock group in the answer, if that is not 0."
        let fresh = match call {
            Call::Initiate { fresh, .. } | Call::Receive { fresh, .. } if answer.fresh_group != 0 => {
                Some((answer.fresh_group, filled(form.fresh_part(&groups, fresh, answer.fresh_group))))
            }
            _ => None,
        };
        peer.last_fresh = fresh.or(peer.last_fresh);
        let received = match call {
            Call::Receive { frame, .. } => frame::read(frame, &groups),
            _ => None,
        };
        // "A repeat is a call in a run that sends, uses nothing afresh, forms nothing": the reply to a 76 is one too.
        let forms = received.is_some() && answer.forms();
        if let Some(run) = &mut peer.run {
            if !answer.frames.is_empty() && fresh.is_none() && !forms {
                let repeats = &mut run.repeats[usize::from(run.stands)];
                *repeats += 1;
                if *repeats > run.most() {
                    let pair = if run.stands { "standing" } else { "not standing yet" };
                    return Err(format!(
                        "(d) a repeat past {} in a run that began with Sync limit {}, its pair {pair}",
                        run.most(),
                        run.limit
                    ));
                }
            }
        }
        match call {
            Call::Initiate { .. } => peer.run = Some(Run::begun(limit)),
            Call::Kill { .. } => (peer.run, peer.link) = (None, None),
            _ => {}
        }
        if let (true, Some(Body::Commit { group, commit, .. })) = (forms, received) {
            let Some((_, own)) = peer.last_fresh else { return Err("a pair formed and no commit used afresh before".into()) };
            let pair = Pair { group, own, peer: filled(commit) };
            peer.last_pair = Some(pair);
            peer.formed.insert(pair);
            // "or with a pair formed without a run"
            peer.run.get_or_insert(Run::begun(limit)).stands = true;
            // "Its mark is clear until a pair is formed again."
            if let Some(link) = &mut peer.link {
                link.marked = true;
            }
        } else if forms {
            return Err("a pair formed without a Commit in a listed group".into());
        }
        match answer.event {
            0 => {}
            // "Event 1 makes the pair last formed the finished link."
            1 => {
                let Some(pair) = peer.last_pair else { return Err("event 1 and no pair formed before".into()) };
                (peer.run, peer.link) = (None, Some(Link { pair, marked: false }));
            }
            2 => peer.run = None,
            3 => peer.link = None,
            event => return Err(format!("event {event}")),
        }
        Ok(())
    }

    /// The finished links whose mark is clear, with every address.
    pub fn good_links(&self) -> usize {
        self.peers.values().filter(|peer| peer.link.is_some_and(|link| !link.marked)).count()
    }

    /// (a) "The table's link flag, mark, group and commits say just this", for every address; and with (d), Sync counts the
    /// repeats of a run in being, since it began or, once its pair stands, since then.
    pub fn agrees(&self, table: &[u8]) -> Result<(), String> {
        for peer in records(table).filter(|peer| peer.has_run()) {
            let run = self.peers.get(&peer.address()).and_then(|peer| peer.run.as_ref());
            let repeats = run.map(|run| run.repeats[usize::from(run.stands)]);
            if repeats != Some(u32::from(peer.sync())) {
                return Err(format!("(d) Sync is {} with {:02x?}, and the repeats are {repeats:?}", peer.sync(), peer.address()));
            }
        }
        let mut linked = 0;
        for peer in records(table).filter(|peer| peer.has_link()) {
            let pair = Pair { group: peer.link_group(), own: peer.link_own(), peer: peer.link_peer() };
            let told = self.peers.get(&peer.address()).and_then(|peer| peer.link);
            if told != Some(Link { pair, marked: peer.superseded() }) {
                return Err(format!("(a) the table's link with {:02x?} is not what the answers said", peer.address()));
            }
            linked += 1;
        }
        match self.peers.values().filter(|peer| peer.link.is_some()).count() == linked {
            true => Ok(()),
            false => Err("(a) the answers said a link that the table lacks".into()),
        }
    }
}
