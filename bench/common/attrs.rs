//! Attributes as `rs_attrs` keeps them: what is known of each, and the octets of their values, one behind the other.

#[derive(Clone, Copy, PartialEq)]
#[allow(dead_code)]
pub struct Head {
    pub kind: u8,
    pub optional: bool,
    pub transitive: bool,
    pub partial: bool,
    pub len: u32,
}

#[derive(PartialEq)]
#[allow(dead_code)]
pub struct Attrs {
    pub heads: Vec<Head>,
    pub values: Vec<u8>,
}
