//! Damage to the bytes of a book or a sheet.

use super::random::Random;

/// Values at the bounds of the formats.
const EDGES: [u8; 17] = [0, 1, 2, 3, 4, 7, 8, 9, 15, 16, 17, 63, 64, 65, 127, 128, 255];

pub fn damaged(random: &mut Random, mut bytes: Vec<u8>) -> Vec<u8> {
    for _ in 0..random.pick(&[1, 1, 1, 2, 3]) {
        match random.below(8) {
            0 => bytes.truncate(random.below(bytes.len() + 1)),
            1 => {
                let more = random.pick(&[1, 2, 4, 850]);
                bytes.extend(random.bytes(more));
            }
            2 if bytes.len() > 4 => swap(random, &mut bytes),
            _ if !bytes.is_empty() => change(random, &mut bytes),
            _ => {}
        }
    }
    bytes
}

/// Damage where the editions differ: byte 0, the head, the fifth entry, the greatest length; or any.
pub fn damaged_by_edition(random: &mut Random, mut bytes: Vec<u8>) -> Vec<u8> {
    match random.below(16) {
        0 => bytes[0] = random.pick(&[0, 1, 3]),
        1 => bytes.truncate(17 + random.below(6)),
        2 | 3 => {
            bytes.resize(random.pick(&[850, 851, 982, 983]), 0);
            bytes[0] = random.pick(&[1, 2, 2, 3]);
        }
        4 | 5 => {
            let position = 18 + random.below(4);
            bytes[position] = random.pick(&[0, 1, 64, 65, bytes[position].wrapping_add(1), bytes[position] ^ 2]);
        }
        6 => drop(bytes.drain(18..22)),
        _ => return damaged(random, bytes),
    }
    bytes
}

fn change(random: &mut Random, bytes: &mut [u8]) {
    let position = position(random, bytes.len());
    bytes[position] = match random.below(4) {
        0 => bytes[position].wrapping_add(1),
        1 => bytes[position].wrapping_sub(1),
        2 => random.pick(&EDGES),
        _ => random.up_to(255),
    };
}

/// Exchanges two records of one to four bytes.
fn swap(random: &mut Random, bytes: &mut [u8]) {
    let width = 1 + random.below(4);
    let starts = bytes.len() - width + 1;
    let (one, other) = (position(random, starts), position(random, starts));
    for i in 0..width {
        bytes.swap(one + i, other + i);
    }
}

/// Anywhere; one in four times in the head.
fn position(random: &mut Random, length: usize) -> usize {
    let bound = if random.one_in(4) { length.min(18) } else { length };
    random.below(bound)
}
