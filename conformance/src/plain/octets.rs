//! Octets: little-endian fields, zero tests, addresses. Nothing here knows what a frame or a table is.

/// A MAC address as it stands in a frame.
pub type Address = [u8; 6];

/// The 2 octets at `at`, little-endian.
pub fn get16(octets: &[u8], at: usize) -> u16 {
    u16::from_le_bytes([octets[at], octets[at + 1]])
}

/// The 4 octets at `at`, little-endian.
pub fn get32(octets: &[u8], at: usize) -> u32 {
    u32::from_le_bytes([octets[at], octets[at + 1], octets[at + 2], octets[at + 3]])
}

pub fn put16(octets: &mut [u8], at: usize, value: u16) {
    octets[at..at + 2].copy_from_slice(&value.to_le_bytes());
}

pub fn put32(octets: &mut [u8], at: usize, value: u32) {
    octets[at..at + 4].copy_from_slice(&value.to_le_bytes());
}

/// Whether all octets are zero. No early way out: the loop becomes wide loads.
pub fn all_zero(octets: &[u8]) -> bool {
    octets.iter().fold(0, |any, octet| any | octet) == 0
}

/// An address as a number. "Addresses compare first octet first": so do these numbers.
pub fn pack(address: &Address) -> u64 {
    let [a, b, c, d, e, f] = *address;
    u64::from_be_bytes([0, 0, a, b, c, d, e, f])
}

/// Individual (lowest bit of the first octet 0) and not zero.
pub fn individual(address: u64) -> bool {
    address & (1 << 40) == 0 && address != 0
}

/// "A usable address is individual, not zero, not our own."
pub fn usable(address: u64, own: u64) -> bool {
    individual(address) && address != own
}
