//! The engine in libsae.a, through the C interface of include/sae.h.

use crate::interface::{Engine, ANSWER, PARTS, SETTINGS};
use crate::plain::octets::Address;

/// The declarations of include/sae.h: slices pass as pointer and length.
mod c {
    extern "C" {
        pub fn sae_initialize(table: *mut u8, table_len: usize, own: *const u8, settings: *const u8, answer: *mut u8) -> u32;
        pub fn sae_initiate(
            table: *mut u8,
            table_len: usize,
            address: *const u8,
            now: u32,
            fresh: *const u8,
            fresh_len: usize,
            answer: *mut u8,
        ) -> u32;
        pub fn sae_kill(table: *mut u8, table_len: usize, address: *const u8, answer: *mut u8) -> u32;
        pub fn sae_receive(
            table: *mut u8,
            table_len: usize,
            address: *const u8,
            now: u32,
            frame: *const u8,
            frame_len: usize,
            fresh: *const u8,
            fresh_len: usize,
            expected: *const u8,
            expected_len: usize,
            verified: u8,
            answer: *mut u8,
        ) -> u32;
        pub fn sae_expire(table: *mut u8, table_len: usize, now: u32, answer: *mut u8) -> u32;
        pub fn sae_write_parts(
            table: *const u8,
            table_len: usize,
            sequence: u16,
            status: u16,
            group: u16,
            counter: u16,
            token: *const u8,
            token_len: usize,
            rest: *const u8,
            rest_len: usize,
            out: *mut u8,
            out_len: usize,
            written: *mut u32,
        ) -> u32;
        pub fn sae_write_record(
            table: *const u8,
            table_len: usize,
            address: *const u8,
            sequence: u16,
            value: *const u8,
            value_len: usize,
            out: *mut u8,
            out_len: usize,
            written: *mut u32,
        ) -> u32;
        pub fn sae_read(table: *const u8, table_len: usize, frame: *const u8, frame_len: usize, parts: *mut u8) -> u32;
        pub fn sae_next_deadline(table: *const u8, table_len: usize, now: u32, milliseconds: *mut u32) -> u32;
        pub fn sae_find(table: *const u8, table_len: usize, address: *const u8, offset: *mut u32) -> u32;
        pub fn sae_good_links(header: *const u8, header_len: usize, good: *mut u32) -> u32;
        pub fn sae_fill(table: *mut u8, table_len: usize) -> u32;
        pub fn sae_widen(source: *const u8, source_len: usize, target: *mut u8, target_len: usize) -> u32;
        pub fn sae_narrow(source: *const u8, source_len: usize, target: *mut u8, target_len: usize) -> u32;
    }
}

/// The archive's functions on slices. A slice's pointer is never null, an empty one's neither.
pub struct Archive;

// SAFETY of every call: pointers come from references that live through the call, lengths from the same slices, and what
// may be written is borrowed mutably, so nothing overlaps it.
impl Engine for Archive {
    fn name(&self) -> &'static str {
        "archive"
    }

    fn initialize(&self, table: &mut [u8], own: &Address, settings: &[u8; SETTINGS], answer: &mut [u8; ANSWER]) -> u32 {
        unsafe { c::sae_initialize(table.as_mut_ptr(), table.len(), own.as_ptr(), settings.as_ptr(), answer.as_mut_ptr()) }
    }

    fn initiate(&self, table: &mut [u8], address: &Address, now: u32, fresh: &[u8], answer: &mut [u8; ANSWER]) -> u32 {
        unsafe { c::sae_initiate(table.as_mut_ptr(), table.len(), address.as_ptr(), now, fresh.as_ptr(), fresh.len(), answer.as_mut_ptr()) }
    }

    fn kill(&self, table: &mut [u8], address: &Address, answer: &mut [u8; ANSWER]) -> u32 {
        unsafe { c::sae_kill(table.as_mut_ptr(), table.len(), address.as_ptr(), answer.as_mut_ptr()) }
    }

    fn receive(
        &self,
        table: &mut [u8],
        address: &Address,
        now: u32,
        frame: &[u8],
        fresh: &[u8],
        expected: &[u8],
        verified: u8,
        answer: &mut [u8; ANSWER],
    ) -> u32 {
        unsafe {
            c::sae_receive(
                table.as_mut_ptr(),
                table.len(),
                address.as_ptr(),
                now,
                frame.as_ptr(),
                frame.len(),
                fresh.as_ptr(),
                fresh.len(),
                expected.as_ptr(),
                expected.len(),
                verified,
                answer.as_mut_ptr(),
            )
        }
    }

    fn expire(&self, table: &mut [u8], now: u32, answer: &mut [u8; ANSWER]) -> u32 {
        unsafe { c::sae_expire(table.as_mut_ptr(), table.len(), now, answer.as_mut_ptr()) }
    }

    fn write_parts(
        &self,
        table: &[u8],
        sequence: u16,
        status: u16,
        group: u16,
        counter: u16,
        token: &[u8],
        rest: &[u8],
        out: &mut [u8],
        written: &mut u32,
    ) -> u32 {
        unsafe {
            c::sae_write_parts(
                table.as_ptr(),
                table.len(),
                sequence,
                status,
                group,
                counter,
                token.as_ptr(),
                token.len(),
                rest.as_ptr(),
                rest.len(),
                out.as_mut_ptr(),
                out.len(),
                written,
            )
        }
    }

    fn write_record(&self, table: &[u8], address: &Address, sequence: u16, value: &[u8], out: &mut [u8], written: &mut u32) -> u32 {
        unsafe {
            c::sae_write_record(
                table.as_ptr(),
                table.len(),
                address.as_ptr(),
                sequence,
                value.as_ptr(),
                value.len(),
                out.as_mut_ptr(),
                out.len(),
                written,
            )
        }
    }

    fn read(&self, table: &[u8], frame: &[u8], parts: &mut [u8; PARTS]) -> u32 {
        unsafe { c::sae_read(table.as_ptr(), table.len(), frame.as_ptr(), frame.len(), parts.as_mut_ptr()) }
    }

    fn next_deadline(&self, table: &[u8], now: u32, milliseconds: &mut u32) -> u32 {
        unsafe { c::sae_next_deadline(table.as_ptr(), table.len(), now, milliseconds) }
    }

    fn find(&self, table: &[u8], address: &Address, offset: &mut u32) -> u32 {
        unsafe { c::sae_find(table.as_ptr(), table.len(), address.as_ptr(), offset) }
    }

    fn good_links(&self, header: &[u8], good: &mut u32) -> u32 {
        unsafe { c::sae_good_links(header.as_ptr(), header.len(), good) }
    }

    fn fill(&self, table: &mut [u8]) -> u32 {
        unsafe { c::sae_fill(table.as_mut_ptr(), table.len()) }
    }

    fn widen(&self, source: &[u8], target: &mut [u8]) -> u32 {
        unsafe { c::sae_widen(source.as_ptr(), source.len(), target.as_mut_ptr(), target.len()) }
    }

    fn narrow(&self, source: &[u8], target: &mut [u8]) -> u32 {
        unsafe { c::sae_narrow(source.as_ptr(), source.len(), target.as_mut_ptr(), target.len()) }
    }
}
