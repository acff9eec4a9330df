//! Authentication frame bodies: reading and writing.

use super::octets::{get16, put16};
use super::table::{Groups, TOKEN};

/// Octets of the scalar in a group, 0 for a group that no list may have.
pub const fn scalar_len(group: u16) -> usize {
    match group {
        19 => 32,
        20 => 48,
        21 => 66,
        _ => 0,
    }
}

/// Octets of scalar and element in a group: the element is twice as long as the scalar.
pub const fn commit_len(group: u16) -> usize {
    3 * scalar_len(group)
}

pub const ALGORITHM: u16 = 3;
pub const COMMIT: u16 = 1;
pub const CONFIRM: u16 = 2;
pub const SUCCESS: u16 = 0;
pub const TOKEN_REQUIRED: u16 = 76;
pub const GROUP_REFUSED: u16 = 77;

/// Octets of a Confirm's value.
pub const VALUE: usize = 32;
/// Octets before a token, a scalar or a Confirm's value.
pub const FRONT: usize = 8;

const SHORTEST: usize = 6;
pub const LONGEST: usize = 2304;
/// Octets of a Confirm, behind which elements may stand.
pub const CONFIRM_LEN: usize = FRONT + VALUE;

/// What a received body says. Parts are the received octets themselves.
#[derive(Clone, Copy)]
pub enum Body<'a> {
    /// Commit, status 0, in a listed group: token, then scalar and element.
    Commit { group: u16, token: &'a [u8], commit: &'a [u8] },
    /// Commit, status 0, in another group.
    UnsupportedCommit { group: u16 },
    /// Commit, status 76.
    TokenRequest { group: u16, token: &'a [u8] },
    /// Commit, status 77.
    GroupRefusal { group: u16 },
    /// Commit, any other status.
    FailedCommit { status: u16 },
    /// Confirm, status 0, and the elements that follow it.
    Confirm { counter: u16, elements: &'a [u8] },
    /// Confirm, any other status.
    FailedConfirm { status: u16 },
}

/// The body of a received frame, if it is of the shapes.
pub fn read<'a>(frame: &'a [u8], groups: &Groups) -> Option<Body<'a>> {
    // "A body is 6 to 2,304 octets."
    if !(SHORTEST..=LONGEST).contains(&frame.len()) || get16(frame, 0) != ALGORITHM {
        return None;
    }
    let status = get16(frame, 4);
    match get16(frame, 2) {
        COMMIT => read_commit(frame, status, groups),
        CONFIRM => read_confirm(frame, status),
        _ => None,
    }
}

fn read_commit<'a>(frame: &'a [u8], status: u16, groups: &Groups) -> Option<Body<'a>> {
    // "Any other status: the rest is not looked at."
    if !matches!(status, SUCCESS | TOKEN_REQUIRED | GROUP_REFUSED) {
        return Some(Body::FailedCommit { status });
    }
    let (front, rest) = frame.split_first_chunk::<FRONT>()?;
    let group = get16(front, 6);
    match status {
        // "Status 76: group, token of 1 to 256."
        TOKEN_REQUIRED => (1..=TOKEN).contains(&rest.len()).then_some(Body::TokenRequest { group, token: rest }),
        // "Status 77: group only, total 8."
        GROUP_REFUSED => rest.is_empty().then_some(Body::GroupRefusal { group }),
        // "Group (2), token (0 to 256 octets), scalar, element. The token is what the length leaves over."
        _ if groups.lists(group) => {
            let (token, commit) = rest.split_at_checked(rest.len().checked_sub(commit_len(group))?)?;
            (token.len() <= TOKEN).then_some(Body::Commit { group, token, commit })
        }
        // "A status 0 Commit in any other group needs 8 octets or more; its rest is not looked at."
        _ => Some(Body::UnsupportedCommit { group }),
    }
}

fn read_confirm(frame: &[u8], status: u16) -> Option<Body<'_>> {
    // "A Confirm with nonzero status: the rest is not looked at."
    if status != SUCCESS {
        return Some(Body::FailedConfirm { status });
    }
    // "Confirm, status 0: counter (2), value (32), total 40", then "any run of whole elements".
    let (front, elements) = frame.split_first_chunk::<CONFIRM_LEN>()?;
    are_whole(elements).then(|| Body::Confirm { counter: get16(front, 6), elements })
}

/// "Identifier octet, length octet, contents, repeated to the end."
fn are_whole(mut elements: &[u8]) -> bool {
    while !elements.is_empty() {
        let [_, length, rest @ ..] = elements else { return false };
        let Some(next) = rest.get(usize::from(*length)..) else { return false };
        elements = next;
    }
    true
}

/// A frame to be written: "a status 0 Commit in a listed group, a 76, a 77 or a status 0 Confirm".
pub struct Parts<'a> {
    pub sequence: u16,
    pub status: u16,
    pub group: u16,
    pub counter: u16,
    pub token: &'a [u8],
    pub rest: &'a [u8],
}

impl Parts<'_> {
    /// Whether a frame of these parts is of the shapes.
    pub fn right(&self, groups: &Groups) -> bool {
        match (self.sequence, self.status) {
            (COMMIT, SUCCESS) => {
                groups.lists(self.group) && self.counter == 0 && self.token.len() <= TOKEN && self.rest.len() == commit_len(self.group)
            }
            (COMMIT, TOKEN_REQUIRED) => self.counter == 0 && (1..=TOKEN).contains(&self.token.len()) && self.rest.is_empty(),
            (COMMIT, GROUP_REFUSED) => self.counter == 0 && self.token.is_empty() && self.rest.is_empty(),
            (CONFIRM, SUCCESS) => self.group == 0 && self.token.is_empty() && self.rest.len() == VALUE,
            _ => false,
        }
    }

    /// Writes the frame and answers its length, or nothing if the buffer is too short.
    pub fn write(&self, out: &mut [u8]) -> Option<usize> {
        let length = FRONT + self.token.len() + self.rest.len();
        let frame = out.get_mut(..length)?;
        put16(frame, 0, ALGORITHM);
        put16(frame, 2, self.sequence);
        put16(frame, 4, self.status);
        put16(frame, 6, if self.sequence == CONFIRM { self.counter } else { self.group });
        let (token, rest) = frame[FRONT..].split_at_mut(self.token.len());
        token.copy_from_slice(self.token);
        rest.copy_from_slice(self.rest);
        Some(length)
    }
}
