//! The plain counterpart of locations.txt: a HashMap that one thread fills.
use std::collections::HashMap;

#[derive(Clone, Copy)]
struct Located {
    place: (u32, u32),
    at: Option<(u32, u32)>,
}

fn main() {
    let name = std::env::args().nth(1).unwrap_or_default();
    let count: i64 = if name.ends_with("large") { 10_000_000 } else { 1_000_000 };
    let mut nodes: HashMap<i64, Located> = HashMap::new();
    for id in 0..count {
        let x = id as u32;
        let node = Located {
            place: (x >> 13, (id % 8_000) as u32),
            at: Some((x.wrapping_mul(2_654_435_761), x)),
        };
        nodes
            .entry(id)
            .and_modify(|old| {
                if old.place < node.place {
                    *old = node;
                }
            })
            .or_insert(node);
    }
    let mut sum: u64 = nodes.len() as u64;
    if name.starts_with("look") {
        for n in 0..count {
            let id = n.wrapping_mul(7_368_787) % count;
            if let Some(node) = nodes.get(&id) {
                sum += u64::from(node.place.1) + u64::from(node.at.is_none());
            }
        }
    }
    println!("{name}: {sum}");
}
