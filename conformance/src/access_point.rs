//! A wrongly set access point, as an end that a printer of ours meets: it answers 76 to every Commit, token or no token, and does
//! nothing else.

use crate::air::{End, Turn, TOKEN};
use crate::forms::ALL;
use crate::history::Link;
use crate::mesh::written;
use crate::plain::frame::{self, Body, Parts, COMMIT, TOKEN_REQUIRED};
use crate::together::Fault;

pub struct AccessPoint;

impl End for AccessPoint {
    fn start(&mut self, _: u64) -> Result<Turn, Fault> {
        Ok(Turn::default())
    }

    fn receive(&mut self, _: u64, frame: &[u8]) -> Result<Turn, Fault> {
        Ok(match frame::read(frame, &ALL) {
            Some(Body::Commit { group, .. }) => {
                let request = Parts { sequence: COMMIT, status: TOKEN_REQUIRED, group, counter: 0, token: &TOKEN, rest: &[] };
                Turn { event: 0, frames: vec![written(&request)] }
            }
            _ => Turn::default(),
        })
    }

    fn expire(&mut self, _: u64) -> Result<Turn, Fault> {
        Ok(Turn::default())
    }

    /// It takes its time for every frame.
    fn asks_chip(&self, _: &[u8]) -> bool {
        true
    }

    fn deadline(&self) -> Option<u64> {
        None
    }

    fn link(&self) -> Option<Link> {
        None
    }
}
