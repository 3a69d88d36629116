//! Octets of UPDATEs and of their attributes (RFC 4271, 4.3).

use crate::numbering::put_prefix;

/// Puts an attribute of less than 256 octets behind others.
pub fn attr(out: &mut Vec<u8>, flags: u8, kind: u8, value: &[u8]) {
    assert!(value.len() < 256);
    out.extend_from_slice(&[flags, kind, value.len() as u8]);
    out.extend_from_slice(value);
}

/// The UPDATEs that announce these prefixes with these attributes, each of at most 4,096 octets.
pub fn update(set: &[u8], ids: &[u32], out: &mut Vec<u8>) {
    let mut i = 0;
    while i < ids.len() {
        let at = out.len();
        out.extend_from_slice(&[0xff; 16]);
        out.extend_from_slice(&[0, 0, 2, 0, 0]);
        out.extend_from_slice(&(set.len() as u16).to_be_bytes());
        out.extend_from_slice(set);
        while i < ids.len() && out.len() - at + 5 <= 4096 {
            put_prefix(out, ids[i]);
            i += 1;
        }
        let n = (out.len() - at) as u16;
        out[at + 16..at + 18].copy_from_slice(&n.to_be_bytes());
    }
}

/// The UPDATE that withdraws these prefixes.
pub fn withdrawal(ids: &[u32], out: &mut Vec<u8>) {
    let at = out.len();
    out.extend_from_slice(&[0xff; 16]);
    out.extend_from_slice(&[0, 0, 2, 0, 0]);
    for &id in ids {
        put_prefix(out, id);
    }
    let w = (out.len() - at - 21) as u16;
    out[at + 19..at + 21].copy_from_slice(&w.to_be_bytes());
    out.extend_from_slice(&[0, 0]);
    let n = (out.len() - at) as u16;
    out[at + 16..at + 18].copy_from_slice(&n.to_be_bytes());
}

/// The attribute at the front of a field: its flags but for that of the length, its type and its value, and what stands
/// behind it. None where it is cut off.
fn first(field: &[u8]) -> Option<(u8, u8, &[u8], &[u8])> {
    let flags = *field.first()?;
    let (n, h) = if flags & 0x10 != 0 {
        (u16::from_be_bytes([*field.get(2)?, *field.get(3)?]) as usize, 4)
    } else {
        (*field.get(2)? as usize, 3)
    };
    Some((flags & 0xe0, field[1], field.get(h..h + n)?, &field[h + n..]))
}

/// Attributes by rising type, short length form where it fits. None where the field is cut.
pub fn canonical(field: &[u8], out: &mut Vec<u8>) -> Option<()> {
    let mut parts: Vec<(u8, u8, &[u8])> = Vec::with_capacity(10);
    let mut f = field;
    while !f.is_empty() {
        let (flags, kind, value, rest) = first(f)?;
        parts.push((kind, flags, value));
        f = rest;
    }
    parts.sort_by_key(|p| p.0);
    out.clear();
    for (kind, flags, v) in parts {
        if v.len() < 256 {
            out.extend_from_slice(&[flags, kind, v.len() as u8]);
        } else {
            out.extend_from_slice(&[flags | 0x10, kind, (v.len() >> 8) as u8, v.len() as u8]);
        }
        out.extend_from_slice(v);
    }
    Some(())
}

/// Value of an attribute in a well-formed field.
pub fn find(field: &[u8], kind: u8) -> Option<(u8, &[u8])> {
    let mut f = field;
    while let Some((flags, it, value, rest)) = first(f) {
        if it == kind {
            return Some((flags, value));
        }
        f = rest;
    }
    None
}
