//! Two ends and an air in which every frame takes its time and none is lost. Nothing is at random.

use crate::access_point::AccessPoint;
use crate::forms::{groups_of, records, Layout, Seen, ALL, WIDE};
use crate::history::{Answer, Link, Pair};
use crate::interface::{Call, Counts, Lent};
use crate::mesh::Mesh;
use crate::plain::frame::{self, Body, COMMIT as COMMIT_FRAME, CONFIRM, SUCCESS, TOKEN_REQUIRED, VALUE};
use crate::plain::octets::Address;
use crate::plain::peer::State;
use crate::plain::table::{Groups, Pace, Settings};
use crate::together::{Fault, Known, Together};

/// The addresses of A and B.
pub const ADDRESSES: [Address; 2] = [[2, 0, 0, 0, 0, 0x0a], [2, 0, 0, 0, 0, 0x0b]];
pub const NAMES: [char; 2] = ['A', 'B'];

/// When a play that has not come to rest is left, in milliseconds, unless its settings let runs last long.
pub const LAST: u64 = 120_000;
/// How many times the silence until giving up a play lasts, where that is longer.
const SILENCES: u64 = 10;

/// Whose peer an end is.
#[derive(Clone, Copy, PartialEq)]
pub enum Maker {
    Ours,
    /// The model in mesh.rs.
    Mesh,
    /// The one in access_point.rs.
    AccessPoint,
    /// There is none: what is sent to it is not answered.
    Nobody,
}

/// What is played. The first of each two is A's, the second B's.
#[derive(Clone, Copy)]
pub struct Plan {
    /// Milliseconds that a frame takes which this end sends.
    pub takes: [u64; 2],
    /// Milliseconds that this end's chip takes for a frame received whose verdict is looked at. Frames wait for it one behind the
    /// other; the clock is served meanwhile.
    pub chip: [u64; 2],
    /// When it starts, if it does and has not heard from the other by then.
    pub starts: [Option<u64>; 2],
    pub makers: [Maker; 2],
    /// The groups that this end lists and the form of its table, if it is ours.
    pub groups: [Groups; 2],
    pub forms: [&'static Layout; 2],
    /// The first period and the Sync limit of its settings, as they are handed over, if it is ours.
    pub periods: [u16; 2],
    pub sync_limits: [u8; 2],
    /// Whether this end, if it is ours, asks for a token from the first run on.
    pub asks_token: [bool; 2],
    /// Whether a host of ours leaves out a 76 with the token that its run has already.
    pub filters_requests: bool,
    /// Whether both have the same password. If not, no Confirm is right.
    pub same_password: bool,
}

impl Plan {
    /// Two of ours with this delay each way, no time at the chip, and A starting at 0 ms.
    pub fn ours(delay: u64) -> Plan {
        Plan {
            takes: [delay; 2],
            chip: [0; 2],
            starts: [Some(0), None],
            makers: [Maker::Ours; 2],
            groups: [Settings::factory().groups; 2],
            forms: [&WIDE; 2],
            periods: [Settings::PERIOD; 2],
            sync_limits: [Settings::SYNC_LIMIT; 2],
            asks_token: [false; 2],
            filters_requests: false,
            same_password: true,
        }
    }

    /// How runs of this end repeat, if it is ours and its settings are right.
    pub fn pace(&self, who: usize) -> Option<Pace> {
        Pace::of(self.periods[who], self.sync_limits[who])
    }

    /// Whether a longer delay moves nothing but the moments at which frames arrive.
    fn looks_alike(&self) -> bool {
        self.takes[0] == self.takes[1]
            && self.chip == [0; 2]
            && self.makers.iter().all(|maker| matches!(maker, Maker::Ours | Maker::Nobody))
    }

    /// When this play is left, if it has not come to rest.
    pub fn last(&self) -> u64 {
        // All waits of a run together are one period less than the wait that would come next.
        let silence = |pace: Pace| u64::from(pace.delay(pace.highest_sync() + 1));
        let longest = (0..2).filter_map(|who| self.pace(who)).map(silence).max();
        LAST.max(SILENCES * longest.unwrap_or(0))
    }
}

/// What an end does at a turn.
#[derive(Default)]
pub struct Turn {
    /// The event, 0 if none. The model's are those that an engine of ours would tell.
    pub event: u8,
    /// The bodies of the frames that it sends, in order.
    pub frames: Vec<Vec<u8>>,
}

/// One end.
pub trait End {
    fn start(&mut self, now: u64) -> Result<Turn, Fault>;
    fn receive(&mut self, now: u64, frame: &[u8]) -> Result<Turn, Fault>;
    fn expire(&mut self, now: u64) -> Result<Turn, Fault>;
    /// Whether the chip is asked about a frame, received now.
    fn asks_chip(&self, frame: &[u8]) -> bool;
    /// When its run is tried again, if it has one.
    fn deadline(&self) -> Option<u64>;
    fn link(&self) -> Option<Link>;
}

/// What a play came to.
pub struct Outcome {
    /// The events at each end, with their times.
    pub events: [Vec<(u64, u8)>; 2],
    /// The links at the end.
    pub links: [Option<Link>; 2],
    /// Whether it came to rest: no frame in the air, no run.
    pub rests: bool,
    /// With a delay longer by up to so many milliseconds the same happens in the same order. It is looked for where both directions take
    /// the same and each end is ours, without time at the chip, or nobody; else it is 0.
    pub alike: u64,
}

/// Plays until nothing is left to wait for. What falls in the same millisecond: starts first, then frames in the order in which they
/// were sent, then A's clock, then B's.
pub fn play(plan: &Plan, tell: bool) -> Result<Outcome, Fault> {
    let ends = [0, 1].map(|who| -> Box<dyn End> {
        let password = if plan.same_password { 0 } else { who as u8 };
        match plan.makers[who] {
            Maker::Ours => Box::new(Ours::new(who, password, plan)),
            Maker::Mesh => Box::new(Mesh::new(ADDRESSES[who], password)),
            Maker::AccessPoint => Box::new(AccessPoint),
            Maker::Nobody => Box::new(Nobody),
        }
    });
    let mut air = Air {
        plan,
        tell,
        ends,
        starts: plan.starts,
        flights: Vec::new(),
        asked: [None; 2],
        delays_sent: [0; 2],
        events: [Vec::new(), Vec::new()],
    };
    let (last, mut alike) = (plan.last(), if plan.looks_alike() { u64::MAX } else { 0 });
    while let Some((now, next)) = air.next(&mut alike) {
        if now.at > last {
            break;
        }
        match next {
            Next::Start(who) => air.start(now, who)?,
            Next::Frame(place) => air.deliver(now, place)?,
            Next::Clock(who) => {
                air.say(now, who, || "t0 is due".into());
                let turn = air.ends[who].expire(now.at)?;
                air.take(now, who, turn);
            }
        }
    }
    let links = [air.ends[0].link(), air.ends[1].link()];
    Ok(Outcome { rests: air.next(&mut alike).is_none(), events: air.events, links, alike })
}

/// A time: its millisecond, and how many delays it took to come there. With a delay longer by one it is so many milliseconds later.
#[derive(Clone, Copy)]
struct Moment {
    at: u64,
    delays: u64,
}

impl Moment {
    fn later(self, milliseconds: u64) -> Moment {
        Moment { at: self.at + milliseconds, ..self }
    }

    /// By how much longer a delay still leaves this moment, which comes first now, before another.
    fn stays_before(self, other: Moment) -> u64 {
        match self.delays.checked_sub(other.delays) {
            None | Some(0) => u64::MAX,
            Some(faster) => (other.at - self.at).saturating_sub(1) / faster,
        }
    }
}

/// An end at which there is nobody.
struct Nobody;

impl End for Nobody {
    fn start(&mut self, _: u64) -> Result<Turn, Fault> {
        Ok(Turn::default())
    }

    fn receive(&mut self, _: u64, _: &[u8]) -> Result<Turn, Fault> {
        Ok(Turn::default())
    }

    fn expire(&mut self, _: u64) -> Result<Turn, Fault> {
        Ok(Turn::default())
    }

    fn asks_chip(&self, _: &[u8]) -> bool {
        false
    }

    fn deadline(&self) -> Option<u64> {
        None
    }

    fn link(&self) -> Option<Link> {
        None
    }
}

/// What comes next: a start, something about the frame at this place among those on their way, or a deadline.
enum Next {
    Start(usize),
    Frame(usize),
    Clock(usize),
}

/// A frame on its way.
struct Flight {
    to: usize,
    sent: u64,
    arrives: Moment,
    octets: Vec<u8>,
}

struct Air<'a> {
    plan: &'a Plan,
    tell: bool,
    ends: [Box<dyn End>; 2],
    /// The starts that are still to come.
    starts: [Option<u64>; 2],
    /// In the order in which they were sent.
    flights: Vec<Flight>,
    /// When the chip of each end answers, if it has been asked about the first frame that arrived there.
    asked: [Option<Moment>; 2],
    /// How many delays it took to come to where each end sent last: its deadline was set there.
    delays_sent: [u64; 2],
    events: [Vec<(u64, u8)>; 2],
}

impl Air<'_> {
    /// The earliest of all that is to come. What is named first here comes first in its millisecond. `alike` falls to what a delay may
    /// grow by for this to stay the earliest.
    fn next(&self, alike: &mut u64) -> Option<(Moment, Next)> {
        let start = (0..2).filter_map(|who| Some((Moment { at: self.starts[who]?, delays: 0 }, Next::Start(who))));
        let mut frames: Vec<(Moment, usize)> = (0..2).filter_map(|who| self.first(who)).collect();
        frames.sort_by_key(|&(when, place)| (when.at, self.flights[place].sent));
        let frame = frames.into_iter().map(|(when, place)| (when, Next::Frame(place)));
        let clock = (0..2).filter_map(|who| {
            let due = Moment { at: self.ends[who].deadline()?, delays: self.delays_sent[who] };
            Some((due, Next::Clock(who)))
        });
        let mut to_come: Vec<(Moment, Next)> = start.chain(frame).chain(clock).collect();
        to_come.sort_by_key(|(when, _)| when.at);
        let first = to_come.first()?.0;
        let stays = to_come[1..].iter().map(|(when, _)| first.stays_before(*when)).min();
        *alike = (*alike).min(stays.unwrap_or(u64::MAX));
        to_come.into_iter().next()
    }

    /// An end starts, unless it has heard from the other.
    fn start(&mut self, now: Moment, who: usize) -> Result<(), Fault> {
        self.starts[who] = None;
        if self.ends[who].deadline().is_none() && self.ends[who].link().is_none() {
            self.say(now, who, || "starts".into());
            let turn = self.ends[who].start(now.at)?;
            self.take(now, who, turn);
        }
        Ok(())
    }

    /// When something is done about the first frame on its way to an end, and its place.
    fn first(&self, who: usize) -> Option<(Moment, usize)> {
        let place = self.flights.iter().position(|flight| flight.to == who)?;
        Some((self.asked[who].unwrap_or(self.flights[place].arrives), place))
    }

    /// Asks the chip about a frame, or, if nothing is left to ask, makes the call.
    fn deliver(&mut self, now: Moment, place: usize) -> Result<(), Fault> {
        let (who, chip) = (self.flights[place].to, self.plan.chip[self.flights[place].to]);
        if self.asked[who].is_none() && chip > 0 && self.ends[who].asks_chip(&self.flights[place].octets) {
            self.asked[who] = Some(now.later(chip));
            return Ok(());
        }
        self.asked[who] = None;
        let octets = self.flights.remove(place).octets;
        // The next frame, if it is there already, has waited until now.
        if let Some(next) = self.flights.iter_mut().find(|flight| flight.to == who) {
            next.arrives.at = next.arrives.at.max(now.at);
        }
        self.say(now, who, || format!("gets {}", words(&octets)));
        let turn = self.ends[who].receive(now.at, &octets)?;
        self.take(now, who, turn);
        Ok(())
    }

    /// Takes in what an end did.
    fn take(&mut self, now: Moment, who: usize, turn: Turn) {
        if turn.event != 0 {
            self.say(now, who, || format!("event {}, {}", turn.event, EVENTS[usize::from(turn.event)]));
            self.events[who].push((now.at, turn.event));
        }
        if !turn.frames.is_empty() {
            self.delays_sent[who] = now.delays;
        }
        for octets in turn.frames {
            self.say(now, who, || format!("sends {}", words(&octets)));
            let arrives = Moment { at: now.at + self.plan.takes[who], delays: now.delays + 1 };
            self.flights.push(Flight { to: 1 - who, sent: now.at, arrives, octets });
        }
    }

    fn say(&self, now: Moment, who: usize, what: impl FnOnce() -> String) {
        if self.tell {
            println!("{:>7} ms  {}  {}", now.at, NAMES[who], what());
        }
    }
}

/// The events in words.
pub const EVENTS: [&str; 4] = ["none", "accepted", "run given up", "link ended"];

/// A frame in words.
fn words(octets: &[u8]) -> String {
    match frame::read(octets, &ALL) {
        Some(Body::Commit { group, .. }) => format!("Commit, group {group}"),
        Some(Body::Confirm { counter, .. }) => format!("Confirm, counter {counter}"),
        Some(Body::TokenRequest { group, .. }) => format!("76, group {group}"),
        Some(Body::GroupRefusal { group }) => format!("77, group {group}"),
        _ => "a frame of another kind".into(),
    }
}

/// The chip's stand-in. It is no cryptography: octets that differ where they must.
pub mod chip {
    use super::*;

    fn mix(sum: u64, with: u8) -> u64 {
        let sum = (sum ^ u64::from(with)).wrapping_mul(0x9e37_79b9_7f4a_7c15);
        sum ^ sum >> 29
    }

    fn fill(octets: &mut [u8], seed: u64) {
        let mut sum = seed;
        for octet in octets {
            sum = mix(sum, 0);
            *octet = (sum >> 32) as u8;
        }
    }

    /// A commit in a group, unlike all of another address, another number or another group.
    pub fn commit(address: &Address, number: u32, group: u16) -> Vec<u8> {
        let seed = address.iter().chain(&number.to_le_bytes()).fold(0, |sum, &octet| mix(sum, octet));
        let mut commit = vec![0; frame::commit_len(group)];
        fill(&mut commit, if group == 19 { seed } else { mix(seed, group as u8) });
        commit
    }

    /// Fresh commits for these groups, in a form's parts.
    pub fn fresh(form: &Layout, groups: &Groups, address: &Address, number: u32) -> Vec<u8> {
        let part = |&group: &u16| {
            let mut part = commit(address, number, group);
            part.resize(form.commit, 0);
            part
        };
        groups.listed().iter().flat_map(part).collect()
    }

    /// The value of a Confirm that the owner of this pair makes, with this counter.
    pub fn value(password: u8, pair: &Pair, counter: u16) -> [u8; VALUE] {
        let front = [&[password][..], &pair.group.to_le_bytes(), &counter.to_le_bytes()].concat();
        let seed = front.iter().chain(&pair.own).chain(&pair.peer).fold(0, |sum, &octet| mix(sum, octet));
        let mut value = [0; VALUE];
        fill(&mut value, seed);
        value
    }

    /// Whether a Confirm from the other end is right for this end's pair.
    pub fn right(password: u8, pair: &Pair, counter: u16, received: &[u8]) -> bool {
        received == value(password, &pair.exchanged(), counter)
    }
}

/// An end with the engine: every engine there is makes each call, and they are compared.
struct Ours {
    own: Address,
    other: Address,
    password: u8,
    filters_requests: bool,
    together: Together,
    counts: Counts,
    /// Fresh commits used so far.
    used: u32,
}

impl Ours {
    /// A table of one slot with the factory settings but for the groups and, if it asks for a token, threshold 0. A wide one is set up,
    /// a narrow one handed over as set up made it before.
    fn new(who: usize, password: u8, plan: &Plan) -> Ours {
        let (own, other, form) = (ADDRESSES[who], ADDRESSES[1 - who], plan.forms[who]);
        let threshold = if plan.asks_token[who] { 0 } else { Settings::THRESHOLD };
        let (period, sync_limit) = (plan.periods[who], plan.sync_limits[who]);
        let settings = Settings { groups: plan.groups[who], threshold, period, sync_limit };
        let together = Together::new(&form.fresh_table(1, &own, &settings), Known::Sound);
        let filters_requests = plan.filters_requests;
        let mut ours = Ours { own, other, password, filters_requests, together, counts: Counts::default(), used: 0 };
        if *form == WIDE {
            ours.together.set(&vec![0; WIDE.length(1)], Known::Nothing);
            assert!(ours.call(&Call::Initialize { own, settings: settings.octets() }).is_ok(), "the settings are right");
        }
        ours
    }

    fn groups(&self) -> Groups {
        groups_of(self.together.table())
    }

    /// Fresh commits that no call has used.
    fn fresh(&self) -> Vec<u8> {
        let form = Layout::of(self.together.table()).expect("a table of its form");
        chip::fresh(form, &self.groups(), &self.own, self.used)
    }

    fn peer(&self) -> Option<Seen<'_>> {
        records(self.together.table()).find(Seen::in_use)
    }

    /// The pair that a Confirm meets or is made over: the run's in Confirmed, the link's without a run.
    fn pair(&self) -> Option<Pair> {
        let peer = self.peer()?;
        match peer.state() {
            State::Committed => None,
            State::Confirmed => Some(Pair { group: peer.group(), own: peer.own(), peer: peer.peer() }),
            State::Nothing => Some(Pair { group: peer.link_group(), own: peer.link_own(), peer: peer.link_peer() }),
        }
    }

    /// Makes a call that is not to be refused, and writes the frames of its answer.
    fn call(&mut self, call: &Call) -> Result<Turn, Fault> {
        let answer = Answer::read(&self.done(call)?.answer);
        self.used += u32::from(answer.fresh_group != 0);
        let mut frames = Vec::new();
        for sent in &answer.frames {
            let (address, sequence, room) = (answer.address, sent.sequence, 462);
            let write = match (sent.sequence, sent.status) {
                (COMMIT_FRAME, SUCCESS) => Call::WriteRecord { address, sequence, value: Vec::new(), room },
                (CONFIRM, _) => {
                    let pair = self.pair().expect("a Confirm is made over a pair");
                    Call::WriteRecord { address, sequence, value: chip::value(self.password, &pair, sent.counter).to_vec(), room }
                }
                (_, status) => {
                    let token = if status == TOKEN_REQUIRED { TOKEN.to_vec() } else { Vec::new() };
                    Call::WriteParts { sequence, status, group: sent.group, counter: 0, token, rest: Vec::new(), room }
                }
            };
            let lent = self.done(&write)?;
            frames.push(lent.out[..lent.written as usize].to_vec());
        }
        Ok(Turn { event: answer.event, frames })
    }

    fn done(&mut self, call: &Call) -> Result<Lent, Fault> {
        match self.together.call(call, &mut self.counts)? {
            (0, lent) => Ok(lent),
            (number, _) => Err(Fault { what: format!("refused {number}: {call:?}"), trace: String::new() }),
        }
    }
}

/// The token that is expected from anyone.
pub const TOKEN: [u8; 32] = [7; 32];

impl End for Ours {
    fn start(&mut self, now: u64) -> Result<Turn, Fault> {
        let fresh = self.fresh();
        self.call(&Call::Initiate { address: self.other, now: now as u32, fresh })
    }

    fn receive(&mut self, now: u64, frame: &[u8]) -> Result<Turn, Fault> {
        let body = frame::read(frame, &self.groups());
        if let (true, Some(Body::TokenRequest { token, .. }), Some(peer)) = (self.filters_requests, &body, self.peer()) {
            if peer.token() == *token {
                return Ok(Turn::default());
            }
        }
        let verified = match body {
            Some(Body::Commit { .. }) => true,
            Some(Body::Confirm { counter, .. }) => {
                self.pair().is_some_and(|pair| chip::right(self.password, &pair, counter, &frame[frame::FRONT..frame::CONFIRM_LEN]))
            }
            _ => false,
        };
        self.call(&Call::Receive {
            address: self.other,
            now: now as u32,
            frame: frame.to_vec(),
            fresh: self.fresh(),
            expected: TOKEN.to_vec(),
            verified: u8::from(verified),
        })
    }

    fn expire(&mut self, now: u64) -> Result<Turn, Fault> {
        self.call(&Call::Expire { now: now as u32 })
    }

    /// All but a Confirm in Committed or with neither run nor link, and a Commit in Confirmed: the engine looks at no verdict on those.
    fn asks_chip(&self, frame: &[u8]) -> bool {
        let confirmed = self.peer().is_some_and(|peer| peer.state() == State::Confirmed);
        match frame::read(frame, &self.groups()) {
            Some(Body::Commit { .. }) => !confirmed,
            Some(Body::Confirm { .. }) => self.pair().is_some(),
            _ => false,
        }
    }

    fn deadline(&self) -> Option<u64> {
        self.peer().filter(|peer| peer.has_run()).map(|peer| u64::from(peer.t0()))
    }

    fn link(&self) -> Option<Link> {
        let peer = self.peer().filter(|peer| peer.has_link())?;
        let pair = Pair { group: peer.link_group(), own: peer.link_own(), peer: peer.link_peer() };
        Some(Link { pair, marked: peer.superseded() })
    }
}
