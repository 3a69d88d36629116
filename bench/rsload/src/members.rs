//! What each client announces, in JSON, for whoever writes rules for the same clients.

use crate::numbering::prefix_of;
use crate::work::{Client, Set, Work};
use std::collections::BTreeSet;
use std::net::Ipv4Addr;

/// The AS number with which a set's AS_PATH ends: it stands behind ORIGIN (4 octets), and is one sequence.
fn origin_of(set: &Set) -> u32 {
    let end = 7 + set.octets[6] as usize;
    u32::from_be_bytes(set.octets[end - 4..end].try_into().unwrap())
}

/// The prefixes and the origins of a client, also those of its single changes.
fn announced(w: &Work, k: usize, client: &Client) -> (BTreeSet<u32>, BTreeSet<u32>) {
    let single = w.single.iter().filter(|it| it.0 == k).map(|it| (it.2, vec![it.1]));
    let (mut ids, mut origins) = (BTreeSet::new(), BTreeSet::new());
    for (set, group) in client.groups.iter().cloned().chain(single) {
        ids.extend(group);
        origins.insert(origin_of(&w.sets[set as usize]));
    }
    (ids, origins)
}

/// An array of objects, one for each client.
pub fn json(w: &Work) -> String {
    let rows: Vec<String> = w.clients.iter().enumerate().map(|(k, client)| {
        let (ids, origins) = announced(w, k, client);
        let prefixes: Vec<String> = ids.iter().map(|&id| {
            let (bits, len) = prefix_of(id);
            format!("\"{}/{len}\"", Ipv4Addr::from(bits))
        }).collect();
        let numbers: Vec<String> = origins.iter().map(u32::to_string).collect();
        let (prefixes, numbers) = (prefixes.join(","), numbers.join(","));
        format!("{{\"as\":{},\"address\":\"{}\",\"prefixes\":[{prefixes}],\"origins\":[{numbers}]}}", client.asn, Ipv4Addr::from(client.src))
    }).collect();
    format!("[{}]\n", rows.join(",\n"))
}
