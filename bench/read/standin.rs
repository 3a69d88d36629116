//! What `read` of `rs_attrs` does, in plain Rust with the same idea: one walk over the field, a
//! bitmap of the types that came, what is kept in a short list by rising type, two heap blocks.
//! Four-octet peers alone. It prints the nanoseconds of a call, as `read.rt.txt` does.

#[path = "../common/attrs.rs"]
mod attrs;

use attrs::{Attrs, Head};
use std::hint::black_box;
use std::time::Instant;

#[derive(Clone, Copy, PartialEq)]
enum Outcome {
    Kept,
    Withdraw,
    Discard,
    Unknown,
}

#[derive(Clone, Copy)]
enum Class {
    WellKnown,
    OptionalTransitive,
    OptionalNonTransitive,
    Any,
}

#[derive(Clone, Copy)]
enum Cause {
    Flags,
    Value,
    Position,
    Twice,
}

#[derive(Clone, Copy, Default)]
struct Found<'a> {
    flags: u8,
    kind: u8,
    value: &'a [u8],
}

#[derive(Default)]
struct Told {
    mp_twice: bool,
    withdraw: bool,
    unknown: bool,
    discard: bool,
    first_withdrawn: Option<(u8, Cause)>,
    first_discarded: Option<(u8, Cause)>,
}

const FEW: usize = 12;

struct Kept<'a> {
    few: [Found<'a>; FEW],
    count: usize,
    many: Vec<Found<'a>>,
}

impl<'a> Kept<'a> {
    fn new() -> Self {
        Kept { few: [Found::default(); FEW], count: 0, many: Vec::new() }
    }

    fn as_slice(&self) -> &[Found<'a>] {
        if self.many.is_empty() { &self.few[..self.count] } else { &self.many }
    }

    fn put(&mut self, found: Found<'a>) {
        let mut at = self.as_slice().len();
        while at > 0 && self.as_slice()[at - 1].kind > found.kind {
            at -= 1;
        }
        if self.many.is_empty() && self.count < FEW {
            self.few.copy_within(at..self.count, at + 1);
            self.few[at] = found;
            self.count += 1;
        } else {
            if self.many.is_empty() {
                self.many.extend_from_slice(&self.few);
            }
            self.many.insert(at, found);
        }
    }
}

fn next_spelling(octets: &[u8]) -> Option<(Found<'_>, &[u8])> {
    let (&flags, octets) = octets.split_first()?;
    let (head, size) = if flags & 0x10 != 0 {
        let long = octets.get(1..3)?;
        (3, usize::from(u16::from_be_bytes([long[0], long[1]])))
    } else {
        (2, usize::from(*octets.get(1)?))
    };
    let value = octets.get(head..head + size)?;
    Some((Found { flags, kind: octets[0], value }, &octets[head + size..]))
}

fn is_path(mut rest: &[u8]) -> bool {
    while let [kind, count, behind @ ..] = rest {
        let size = 4 * usize::from(*count);
        if !matches!(kind, 1 | 2) || *count == 0 || behind.len() < size {
            return false;
        }
        rest = &behind[size..];
    }
    rest.is_empty()
}

fn fits(class: Class, flags: u8) -> bool {
    match class {
        Class::WellKnown => flags & 0xc0 == 0x40,
        Class::OptionalTransitive => flags & 0xc0 == 0xc0,
        Class::OptionalNonTransitive => flags & 0xc0 == 0x80,
        Class::Any => true,
    }
}

fn filled(value: &[u8], each: usize) -> bool {
    !value.is_empty() && value.len() % each == 0
}

fn outcome_of(found: &Found<'_>) -> Outcome {
    let value = found.value;
    let (class, good, otherwise) = match found.kind {
        1 => (Class::WellKnown, value.len() == 1 && value[0] <= 2, Outcome::Withdraw),
        2 => (Class::WellKnown, is_path(value), Outcome::Withdraw),
        3 => (Class::WellKnown, value.len() == 4, Outcome::Withdraw),
        4 => (Class::OptionalNonTransitive, value.len() == 4, Outcome::Withdraw),
        6 => (Class::WellKnown, value.is_empty(), Outcome::Discard),
        7 => (Class::OptionalTransitive, value.len() == 8, Outcome::Discard),
        8 => (Class::OptionalTransitive, filled(value, 4), Outcome::Withdraw),
        16 => (Class::OptionalTransitive, filled(value, 8), Outcome::Withdraw),
        32 => (Class::OptionalTransitive, filled(value, 12), Outcome::Withdraw),
        5 | 9 | 10 | 14 | 15 | 17 | 18 => (Class::Any, false, Outcome::Discard),
        _ if found.flags & 0x80 != 0 => return Outcome::Kept,
        _ => return Outcome::Unknown,
    };
    match (fits(class, found.flags), good) {
        (false, _) => Outcome::Withdraw,
        (true, true) => Outcome::Kept,
        (true, false) => otherwise,
    }
}

#[cold]
fn take_note(told: &mut Told, came: bool, outcome: Outcome, found: &Found<'_>) {
    let fault = (found.kind, if came { Cause::Twice } else if found.flags & 0x40 == 0 { Cause::Flags } else { Cause::Value });
    if came {
        told.mp_twice |= found.kind == 14 || found.kind == 15;
        told.first_discarded = told.first_discarded.or(Some(fault));
        return;
    }
    match outcome {
        Outcome::Kept => {}
        Outcome::Withdraw => {
            told.withdraw = true;
            told.first_withdrawn = told.first_withdrawn.or(Some(fault));
        }
        Outcome::Discard => {
            told.discard = true;
            told.first_discarded = told.first_discarded.or(Some(fault));
        }
        Outcome::Unknown => told.unknown = true,
    }
}

fn gather<'a>(kept: &mut Kept<'a>, field: &'a [u8]) -> Told {
    let mut came = [0u64; 4];
    let mut told = Told::default();
    let mut rest = field;
    while let Some((found, after)) = next_spelling(rest) {
        let word = &mut came[usize::from(found.kind) / 64];
        let bit = 1u64 << (found.kind % 64);
        let came_before = *word & bit != 0;
        *word |= bit;
        let outcome = outcome_of(&found);
        if !came_before && outcome == Outcome::Kept {
            kept.put(found);
        } else {
            take_note(&mut told, came_before, outcome, &found);
        }
        rest = after;
    }
    if !rest.is_empty() {
        told.withdraw = true;
        told.first_withdrawn = told.first_withdrawn.or(Some((rest.get(1).copied().unwrap_or(0), Cause::Position)));
    }
    told
}

fn head_of(found: &Found<'_>) -> Head {
    let transitive = found.flags & 0x40 != 0;
    let partial = found.flags & 0x20 != 0;
    Head {
        kind: found.kind,
        optional: found.flags & 0x80 != 0,
        transitive,
        partial: match found.kind {
            1 | 2 | 3 | 4 | 6 => false,
            7 | 8 | 16 | 32 => partial,
            _ => transitive || partial,
        },
        len: found.value.len() as u32,
    }
}

#[inline(never)]
fn read(field: &[u8]) -> (Attrs, Told) {
    let mut kept = Kept::new();
    let told = gather(&mut kept, field);
    let kept = kept.as_slice();
    let mut heads = Vec::with_capacity(kept.len());
    let mut values = Vec::with_capacity(kept.iter().map(|found| found.value.len()).sum());
    for found in kept {
        values.extend_from_slice(found.value);
        heads.push(head_of(found));
    }
    (Attrs { heads, values }, told)
}

fn field_of(seed: u8, more: bool) -> Vec<u8> {
    let count = seed % 5 + 1;
    let mut field = vec![0x40, 1, 1, 0, 0x40, 2, 2 + 4 * count, 2, count];
    for _ in 0..count {
        field.extend_from_slice(&[0, 0, 251, seed]);
    }
    field.extend_from_slice(&[0x40, 3, 4, 192, 0, 2, seed]);
    field.extend_from_slice(&[0x80, 4, 4, 0, 0, 0, seed]);
    if more {
        field.extend_from_slice(&[0xc0, 8, 16]);
        for low in 0..4 {
            field.extend_from_slice(&[251, seed, 0, low]);
        }
        field.extend_from_slice(&[0xc0, 32, 24]);
        for low in 0..2 {
            field.extend_from_slice(&[0, 0, 251, seed, 0, 0, 0, low, 0, 0, 0, 1]);
        }
    }
    field
}

fn measure(name: &str, more: bool) {
    const ROUNDS: u128 = 50;
    let fields: Vec<_> = (0..200).map(|seed| field_of(seed, more)).collect();
    let mut least = u128::MAX;
    let mut at_fault = 0u64;
    for _ in 0..200 {
        let start = Instant::now();
        for _ in 0..ROUNDS {
            for field in &fields {
                let (attrs, told) = read(black_box(field));
                at_fault += u64::from(told.withdraw);
                drop(black_box(attrs));
            }
        }
        least = least.min(start.elapsed().as_nanos());
    }
    println!("{name} {} {at_fault}", least / (ROUNDS * 200));
}

fn main() {
    measure("four", false);
    measure("six", true);
}
