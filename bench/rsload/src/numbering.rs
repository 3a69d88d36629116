//! The prefixes of the load, by number: number to prefix and back, by arithmetic alone.

// A block of 4096 addresses (a /20) holds 20 prefixes:
// one /20, one /21, two /22, two /23, fourteen /24.
pub const PER_BLOCK: u32 = 20;
const SLOTS: [(u8, u8); 20] = [
    (20, 0),
    (21, 0),
    (22, 0),
    (22, 8),
    (23, 0),
    (23, 6),
    (24, 0),
    (24, 1),
    (24, 2),
    (24, 3),
    (24, 4),
    (24, 5),
    (24, 6),
    (24, 7),
    (24, 8),
    (24, 9),
    (24, 10),
    (24, 11),
    (24, 12),
    (24, 13),
];
const BASE: u32 = 0x1000_0000; // 16.0.0.0

pub fn prefix_of(id: u32) -> (u32, u8) {
    let (len, off) = SLOTS[(id % PER_BLOCK) as usize];
    (BASE + (id / PER_BLOCK) * 4096 + off as u32 * 256, len)
}

/// Answers None for a prefix that isn't of the numbering.
pub fn id_of(bits: u32, len: u8) -> Option<u32> {
    if bits < BASE || !(20..=24).contains(&len) || bits & 0xff != 0 {
        return None;
    }
    let rel = bits - BASE;
    let (block, off) = (rel / 4096, (rel % 4096) / 256);
    let slot = match (len, off) {
        (20, 0) => 0,
        (21, 0) => 1,
        (22, 0) => 2,
        (22, 8) => 3,
        (23, 0) => 4,
        (23, 6) => 5,
        (24, o) if o < 14 => 6 + o,
        _ => return None,
    };
    Some(block * PER_BLOCK + slot)
}

pub fn put_prefix(out: &mut Vec<u8>, id: u32) {
    let (bits, len) = prefix_of(id);
    out.push(len);
    let b = bits.to_be_bytes();
    out.extend_from_slice(&b[..(len as usize + 7) / 8]);
}
