//! The rules: one function for each named act, then one for each state and message, in the scope's order.

use super::engine::Refusal;
use super::frame::{Body, COMMIT, CONFIRM, GROUP_REFUSED, SUCCESS, TOKEN_REQUIRED};
use super::peer::{same_scalar, Peer, State};
use super::table::{Groups, Pace};

/// A record that a rule may change.
pub type Record<'a, const R: usize> = Peer<&'a mut [u8; R]>;

/// The counter of the Confirm that a finished link answers with.
pub const LINK_COUNTER: u16 = 65_535;

/// From a finished link to its end, in milliseconds.
const LINK_LIFE: u32 = 86_400_000;

/// What a rule looks at besides the record.
pub struct Turn<'a> {
    pub now: u32,
    pub pace: Pace,
    pub groups: Groups,
    /// Whether our own address is above the peer's.
    pub higher: bool,
    /// Whether Open is at or above the threshold.
    pub crowded: bool,
    pub fresh: &'a [u8],
    pub expected: &'a [u8],
    pub verified: bool,
}

/// "Host event (0 none, 1 accepted, 2 run given up, 3 link ended)".
#[derive(Clone, Copy, Default)]
pub enum Event {
    #[default]
    None,
    Accepted,
    Abandoned,
    LinkEnded,
}

/// A frame to send, "by sequence, status, group and counter (0 where it has none)".
#[derive(Clone, Copy, Default)]
pub struct Frame {
    pub sequence: u16,
    pub status: u16,
    pub group: u16,
    pub counter: u16,
}

impl Frame {
    fn commit(group: u16) -> Frame {
        Frame { sequence: COMMIT, status: SUCCESS, group, counter: 0 }
    }

    fn token_request(group: u16) -> Frame {
        Frame { sequence: COMMIT, status: TOKEN_REQUIRED, group, counter: 0 }
    }

    fn group_refusal(group: u16) -> Frame {
        Frame { sequence: COMMIT, status: GROUP_REFUSED, group, counter: 0 }
    }

    fn confirm(counter: u16) -> Frame {
        Frame { sequence: CONFIRM, status: SUCCESS, group: 0, counter }
    }
}

/// What a step answers, but for the address.
#[derive(Clone, Copy, Default)]
pub struct Step {
    pub event: Event,
    pub fresh_group: u16,
    pub count: u8,
    pub frames: [Frame; 2],
}

impl Step {
    fn quiet() -> Step {
        Step::default()
    }

    fn event(event: Event) -> Step {
        Step { event, ..Step::default() }
    }

    fn send(frame: Frame) -> Step {
        Step { count: 1, frames: [frame, Frame::default()], ..Step::default() }
    }

    fn send_both(first: Frame, second: Frame) -> Step {
        Step { count: 2, frames: [first, second], ..Step::default() }
    }

    fn with_fresh(self, group: u16) -> Step {
        Step { fresh_group: group, ..self }
    }
}

/// "Set t0": deadline = now + period × 2^Sync, modulo 2^32.
fn set_t0<const R: usize>(peer: &mut Record<R>, turn: &Turn) {
    peer.set_t0(turn.now.wrapping_add(turn.pace.delay(peer.sync())));
}

/// "Repeat": if Sync is above the limit, give up; else Sync + 1, send, set t0.
fn retransmit<const R: usize>(peer: &mut Record<R>, turn: &Turn, frame: Frame) -> Step {
    if peer.sync() > turn.pace.sync_limit {
        return abandon(peer);
    }
    peer.set_sync(peer.sync() + 1);
    set_t0(peer, turn);
    Step::send(frame)
}

/// "Give up": the run ends.
fn abandon<const R: usize>(peer: &mut Record<R>) -> Step {
    peer.end_run();
    Step::event(Event::Abandoned)
}

/// "Drop": send nothing; "a dropped frame changes nothing in the table".
fn drop_frame() -> Step {
    Step::quiet()
}

/// "Form": take the frame's group, store the peer commit, Sync 0, Sc 1, no rejected groups, Confirmed, set t0;
/// if a link is there, its mark becomes 1.
fn form_pair<const R: usize>(peer: &mut Record<R>, turn: &Turn, group: u16, commit: &[u8]) {
    peer.set_group(group);
    peer.set_peer_commit(commit);
    peer.set_sync(0);
    peer.set_sc(1);
    peer.set_rejected(0);
    peer.set_state(State::Confirmed);
    set_t0(peer, turn);
    if peer.has_link() {
        peer.supersede();
    }
}

/// "Fresh commit, Form, send Commit and Confirm."
fn answer_commit<const R: usize>(peer: &mut Record<R>, turn: &Turn, group: u16, commit: &[u8]) -> Step {
    peer.set_own_commit(turn.groups.fresh_commit::<R>(turn.fresh, group));
    form_pair(peer, turn, group, commit);
    Step::send_both(Frame::commit(group), Frame::confirm(1)).with_fresh(group)
}

/// "Start: Committed, first group, fresh commit, Sync 0, no token, send Commit, set t0."
pub fn initiate<const R: usize>(peer: &mut Record<R>, turn: &Turn) -> Step {
    let group = turn.groups.list[0];
    peer.set_state(State::Committed);
    peer.set_group(group);
    peer.set_own_commit(turn.groups.fresh_commit::<R>(turn.fresh, group));
    set_t0(peer, turn);
    Step::send(Frame::commit(group)).with_fresh(group)
}

/// "Commit, no run, in this order". The record is the peer's own or a free one; there may be neither.
fn commit_without_run<const R: usize>(mut peer: Option<&mut Record<R>>, turn: &Turn, body: &Body) -> Result<Step, Refusal> {
    let (group, token, commit) = match *body {
        Body::Commit { group, token, commit } => (group, token, commit),
        // "unsupported group, send 77 with it"
        Body::UnsupportedCommit { group } => return Ok(Step::send(Frame::group_refusal(group))),
        // "status nonzero, drop"
        _ => return Ok(drop_frame()),
    };
    // "finished link with that group and peer scalar, drop"
    let known = |peer: &&mut Record<R>| peer.has_link() && peer.link_group() == group && same_scalar(group, peer.link_peer(), commit);
    if peer.as_ref().is_some_and(known) {
        return Ok(drop_frame());
    }
    // "Open at or above the threshold: empty token, send 76 with group and expected token; wrong token, drop"
    if turn.crowded && token.is_empty() {
        return Ok(Step::send(Frame::token_request(group)));
    }
    if turn.crowded && token != turn.expected {
        return Ok(drop_frame());
    }
    // "then commit equal to our stock's, or verdict 0, drop"
    if !turn.verified || commit == turn.groups.fresh_commit::<R>(turn.fresh, group) {
        return Ok(drop_frame());
    }
    // "no slot, refuse; else fresh commit, Form, send Commit and Confirm"
    let peer = peer.as_mut().ok_or(Refusal::NoFreeSlot)?;
    Ok(answer_commit(peer, turn, group, commit))
}

/// Commit in Committed, "76: our group, store the token, send Commit with it"; "A Commit sent again for a 76 is now a Repeat: it
/// gives up above the limit and raises Sync"; "other group, drop."
fn token_request_in_committed<const R: usize>(peer: &mut Record<R>, turn: &Turn, group: u16, token: &[u8]) -> Step {
    if group != peer.group() {
        return drop_frame();
    }
    let step = retransmit_commit(peer, turn);
    if let Event::None = step.event {
        peer.set_token(token);
    }
    step
}

/// Commit in Committed, "77: our group, mark it rejected and take the first group in its own list that is not marked as
/// rejected, with a fresh commit (Sync and token stay, send, set t0); none, give up. Other group, drop."
fn group_refusal_in_committed<const R: usize>(peer: &mut Record<R>, turn: &Turn, group: u16) -> Step {
    if group != peer.group() {
        return drop_frame();
    }
    let rejected = peer.rejected() | 1 << turn.groups.place(group);
    let mut listed = turn.groups.listed().iter().enumerate();
    let Some((_, &next)) = listed.find(|(place, _)| rejected & 1 << place == 0) else {
        return abandon(peer);
    };
    peer.set_rejected(rejected);
    peer.set_group(next);
    peer.set_own_commit(turn.groups.fresh_commit::<R>(turn.fresh, next));
    set_t0(peer, turn);
    Step::send(Frame::commit(next)).with_fresh(next)
}

/// Commit in Committed, status 0: "unsupported group, Repeat sending 77."
fn unsupported_commit_in_committed<const R: usize>(peer: &mut Record<R>, turn: &Turn, group: u16) -> Step {
    retransmit(peer, turn, Frame::group_refusal(group))
}

/// Commit in Committed, status 0: "Supported but not ours: higher own address, Repeat the Commit; lower: verdict 0 or equal
/// to our stock's, drop; else fresh commit, Form, send Commit and Confirm. Ours: equal to our commit or verdict 0, drop;
/// else Form, send Confirm."
fn commit_in_committed<const R: usize>(peer: &mut Record<R>, turn: &Turn, group: u16, commit: &[u8]) -> Step {
    let ours = group == peer.group();
    if !ours && turn.higher {
        return retransmit_commit(peer, turn);
    }
    let reflected = commit == if ours { peer.own_commit() } else { turn.groups.fresh_commit::<R>(turn.fresh, group) };
    if reflected || !turn.verified {
        return drop_frame();
    }
    if !ours {
        return answer_commit(peer, turn, group, commit);
    }
    form_pair(peer, turn, group, commit);
    Step::send(Frame::confirm(1))
}

/// "Repeat the Commit."
fn retransmit_commit<const R: usize>(peer: &mut Record<R>, turn: &Turn) -> Step {
    let group = peer.group();
    retransmit(peer, turn, Frame::commit(group))
}

/// "Confirm in Committed: nonzero status, drop; else Repeat the Commit."
fn confirm_in_committed<const R: usize>(peer: &mut Record<R>, turn: &Turn) -> Step {
    retransmit_commit(peer, turn)
}

/// "Confirmed. Commit: status nonzero, drop; Sync above the limit, give up; group differs, drop; else Sync + 1, Sc + 1, send Commit
/// and Confirm, set t0; the stored peer commit stays."
fn commit_in_confirmed<const R: usize>(peer: &mut Record<R>, turn: &Turn, group: u16) -> Step {
    if peer.sync() > turn.pace.sync_limit {
        return abandon(peer);
    }
    if group != peer.group() {
        return drop_frame();
    }
    peer.set_sync(peer.sync() + 1);
    peer.set_sc(peer.sc() + 1);
    set_t0(peer, turn);
    Step::send_both(Frame::commit(group), Frame::confirm(peer.sc()))
}

/// "Confirm: status nonzero or verdict 0, drop; else the run becomes the link: Rc its counter, Sync carried over, mark 0,
/// t1 = now + 86,400,000, any earlier link replaced."
fn confirm_in_confirmed<const R: usize>(peer: &mut Record<R>, turn: &Turn, counter: u16) -> Step {
    if !turn.verified {
        return drop_frame();
    }
    peer.link_run(counter, turn.now.wrapping_add(LINK_LIFE));
    peer.end_run();
    Step::event(Event::Accepted)
}

/// "Link, no run, Confirm: status nonzero, drop; its Sync above the limit, link ends; counter not above Rc, drop; verdict 0, drop;
/// else Rc is the counter, and unless that is 65,535, Sync + 1 and a Confirm with counter 65,535."
fn confirm_at_link<const R: usize>(peer: &mut Record<R>, turn: &Turn, counter: u16) -> Step {
    if peer.link_sync() > turn.pace.sync_limit {
        return end_link(peer);
    }
    if counter <= peer.rc() || !turn.verified {
        return drop_frame();
    }
    peer.set_rc(counter);
    if counter == LINK_COUNTER {
        return Step::quiet();
    }
    peer.set_link_sync(peer.link_sync() + 1);
    Step::send(Frame::confirm(LINK_COUNTER))
}

fn end_link<const R: usize>(peer: &mut Record<R>) -> Step {
    peer.end_link();
    Step::event(Event::LinkEnded)
}

/// A frame received. "A run takes all frames while it lasts. Confirm with neither: drop."
pub fn receive<const R: usize>(peer: Option<&mut Record<R>>, turn: &Turn, body: &Body) -> Result<Step, Refusal> {
    match peer {
        Some(peer) if peer.state() == State::Committed => Ok(receive_in_committed(peer, turn, body)),
        Some(peer) if peer.state() == State::Confirmed => Ok(receive_in_confirmed(peer, turn, body)),
        peer => receive_without_run(peer, turn, body),
    }
}

fn receive_without_run<const R: usize>(peer: Option<&mut Record<R>>, turn: &Turn, body: &Body) -> Result<Step, Refusal> {
    match *body {
        Body::Confirm { counter, .. } => match peer {
            Some(peer) if peer.has_link() => Ok(confirm_at_link(peer, turn, counter)),
            _ => Ok(drop_frame()),
        },
        Body::FailedConfirm { .. } => Ok(drop_frame()),
        _ => commit_without_run(peer, turn, body),
    }
}

fn receive_in_committed<const R: usize>(peer: &mut Record<R>, turn: &Turn, body: &Body) -> Step {
    match *body {
        Body::TokenRequest { group, token } => token_request_in_committed(peer, turn, group, token),
        Body::GroupRefusal { group } => group_refusal_in_committed(peer, turn, group),
        Body::UnsupportedCommit { group } => unsupported_commit_in_committed(peer, turn, group),
        Body::Commit { group, commit, .. } => commit_in_committed(peer, turn, group, commit),
        Body::Confirm { .. } => confirm_in_committed(peer, turn),
        // "Other nonzero status, drop."
        Body::FailedCommit { .. } | Body::FailedConfirm { .. } => drop_frame(),
    }
}

fn receive_in_confirmed<const R: usize>(peer: &mut Record<R>, turn: &Turn, body: &Body) -> Step {
    match *body {
        Body::Commit { group, .. } | Body::UnsupportedCommit { group } => commit_in_confirmed(peer, turn, group),
        Body::Confirm { counter, .. } => confirm_in_confirmed(peer, turn, counter),
        // "status nonzero, drop"
        _ => drop_frame(),
    }
}

/// "A deadline is due when (reading − deadline) modulo 2^32 is below 2^31."
pub fn due(now: u32, deadline: u32) -> bool {
    now.wrapping_sub(deadline) < 1 << 31
}

/// In Committed "t0: Repeat the Commit"; in Confirmed "t0: Repeat with Sc + 1 and a new Confirm".
pub fn expire_t0<const R: usize>(peer: &mut Record<R>, turn: &Turn) -> Step {
    if peer.state() == State::Committed {
        return retransmit_commit(peer, turn);
    }
    let sc = peer.sc() + 1;
    let step = retransmit(peer, turn, Frame::confirm(sc));
    if peer.has_run() {
        peer.set_sc(sc);
    }
    step
}

/// "t1: link ends."
pub fn expire_t1<const R: usize>(peer: &mut Record<R>) -> Step {
    end_link(peer)
}
