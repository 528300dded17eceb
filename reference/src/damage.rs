//! Faulty traffic: message bytes and graph files with random faults.

use crate::fields::VERSION;
use crate::graph::{self, LearnerGraph};
use crate::random::Random;
use crate::sites::random_graph;

/// Where the marker of an acceptor message stands.
const MARKER: usize = 9;

fn fix_outer_length(bytes: &mut [u8]) {
    if bytes.len() >= 2 {
        let after = (bytes.len() - 2) as u16;
        bytes[..2].copy_from_slice(&after.to_be_bytes());
    }
}

/// Where the count of references stands, in bytes that were a message.
pub fn count_place(bytes: &[u8]) -> usize {
    match bytes.get(MARKER) {
        Some(1) => MARKER + 33,
        _ => MARKER + 1,
    }
}

fn set(bytes: &mut [u8], place: usize, byte: u8) {
    if let Some(field) = bytes.get_mut(place) {
        *field = byte;
    }
}

/// Two reference ids swapped, or one made equal to another.
fn disturb_ids(random: &mut Random, bytes: &mut [u8]) {
    let start = count_place(bytes) + 1;
    let count = bytes.len().saturating_sub(start) / 32;
    if count < 2 {
        return;
    }
    let first = random.below(count - 1);
    let second = if random.once_in(2) { first + 1 } else { random.between(first + 1, count - 1) };
    let (low, high) = bytes.split_at_mut(start + 32 * second);
    let low = &mut low[start + 32 * first..][..32];
    if random.once_in(2) {
        low.swap_with_slice(&mut high[..32]);
    } else {
        low.copy_from_slice(&high[..32]);
    }
}

fn flip_bits(random: &mut Random, bytes: &mut [u8]) {
    for _ in 0..random.between(1, 3) {
        if !bytes.is_empty() {
            let place = random.below(bytes.len());
            bytes[place] ^= 1 << random.below(8);
        }
    }
}

/// Bytes cut off, or put behind, with the outer length left wrong or put right.
fn disturb_length(random: &mut Random, bytes: &mut Vec<u8>) {
    match random.below(3) {
        0 => bytes.truncate(random.between(0, bytes.len())),
        1 => {
            // Before a field of the head, or inside it.
            bytes.truncate(random.between(0, 50));
            fix_outer_length(bytes);
        }
        _ => {
            let more = random.between(1, 70);
            bytes.extend(random.bytes(more));
            if random.once_in(2) {
                fix_outer_length(bytes);
            }
        }
    }
}

/// An outer length, version, kind, marker or count outside its range, or about its end.
fn disturb_head(random: &mut Random, bytes: &mut [u8]) {
    let any = random.byte();
    let small = random.below(4) as u8;
    let place = match random.below(4) {
        0 => random.below(2),
        1 => random.between(2, 3),
        2 => MARKER,
        _ => {
            let count = *random.pick(&[0, 1, 2, 127, 128, 129, 130, 255]);
            return set(bytes, count_place(bytes), count);
        }
    };
    set(bytes, place, if random.once_in(3) { any } else { small });
}

/// Random bytes, with some of a head.
fn noise(random: &mut Random) -> Vec<u8> {
    let len = random.between(0, 80);
    let mut bytes = random.bytes(len);
    fix_outer_length(&mut bytes);
    if random.once_in(2) {
        set(&mut bytes, 2, VERSION);
        set(&mut bytes, 3, random.between(1, 2) as u8);
    }
    bytes
}

/// One reference more than there is room for, or far too many bytes.
fn overfill(random: &mut Random, bytes: &mut Vec<u8>) {
    if random.once_in(100) {
        // The outer length cannot tell 65,536 bytes more from none.
        let more = *random.pick(&[65_536, 65_535, 131_072]);
        bytes.resize(bytes.len() + more, 0);
    } else if random.once_in(100) {
        bytes.resize(65_537, 1);
        fix_outer_length(bytes);
    } else {
        let place = count_place(bytes);
        let count = bytes.get(place).map_or(0, |count| count.wrapping_add(1));
        set(bytes, place, count);
    }
}

/// One fault in message bytes.
pub fn message(random: &mut Random, bytes: &mut Vec<u8>) {
    match random.below(12) {
        0 => flip_bits(random, bytes),
        1..=3 => disturb_length(random, bytes),
        4 | 5 => disturb_ids(random, bytes),
        6..=9 => disturb_head(random, bytes),
        10 => *bytes = noise(random),
        _ => overfill(random, bytes),
    }
}

/// A list whose masks break the layout: swapped, equal, zero, naming an unknown
/// acceptor, containing an earlier one, or too many.
fn disturb_masks(random: &mut Random, graph: &mut LearnerGraph) {
    let quorums = graph.quorums.len();
    let place = random.below(quorums + graph.edges.len());
    let list = match place.checked_sub(quorums) {
        None => &mut graph.quorums[place],
        Some(pair) => &mut graph.edges[pair],
    };
    if list.is_empty() {
        return;
    }
    let (one, other) = (random.below(list.len()), random.below(list.len()));
    match random.below(6) {
        0 => list.swap(one, other),
        1 => list[one] = list[other],
        2 => list[one] = 0,
        3 => list[one] |= (1u32 << graph.acceptors) as u16,
        4 => list[one] |= list[other],
        _ => list.push(list[one] | 1 << random.below(graph.acceptors)),
    }
}

fn damage_bytes(random: &mut Random, file: &mut Vec<u8>) {
    match random.below(6) {
        0 => {
            let place = random.below(file.len());
            file[place] ^= 1 << random.below(8);
        }
        1 => {
            let place = random.between(2, 5).min(file.len() - 1);
            file[place] = if random.once_in(2) { random.byte() } else { random.below(20) as u8 };
        }
        2 => file.truncate(random.between(2, file.len())),
        3 => {
            let more = random.between(1, 20);
            file.extend(random.bytes(more));
        }
        4 if random.once_in(50) => file.resize(file.len() + 65_536, 0),
        _ => {
            let place = random.below(file.len());
            file[place] = random.below(10) as u8;
        }
    }
    if random.below(4) > 0 {
        fix_outer_length(file);
    }
}

/// A random graph file, whole or with faults.
pub fn graph_file(random: &mut Random) -> Vec<u8> {
    if random.once_in(50) {
        let len = random.between(0, 20);
        return random.bytes(len);
    }
    let mut graph = random_graph(random);
    if random.once_in(5) {
        disturb_masks(random, &mut graph);
    }
    let mut file = graph::write(&graph);
    if random.once_in(3) {
        damage_bytes(random, &mut file);
    }
    file
}
