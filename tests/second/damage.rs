//! House files made wrong.

use crate::housefile::{seal, seal_all, Filing, BLOCK};
use crate::prng::Prng;

/// A file of this filing with damages of these numbers at random places; of several one may hide
/// another. What has to do with checks comes last, so that nothing mends it.
pub fn file(filing: &Filing, numbers: &[u64], rng: &mut Prng) -> Vec<u8> {
    let mut filing = filing.clone();
    for number in [1, 2, 3, 5, 6, 7, 45] {
        if numbers.contains(&number) {
            state_wrongly(&mut filing, number, rng);
        }
    }
    let mut file = filing.bytes();
    if numbers.contains(&44) {
        damage_block(&mut file, rng, spare_bytes);
    }
    if numbers.contains(&43) {
        damage_block(&mut file, rng, number_or_kind);
    }
    if numbers.contains(&42) {
        damage_block(&mut file, rng, any_bit);
    }
    if numbers.contains(&41) {
        cut_or_stretch(&mut file, rng);
    }
    file
}

/// 1, 2, 3, 5, 6, 7 and 45 are wrong values in a file of the right form.
fn state_wrongly(filing: &mut Filing, number: u64, rng: &mut Prng) {
    let v = rng.below(filing.vertices.len());
    let e = rng.below(filing.targets.len());
    match number {
        1 => match rng.below(4) {
            0 => filing.n = 0,
            1 => filing.n = rng.between(2_049, 65_535) as u16,
            2 => filing.n = 2_049,
            _ => filing.edges = rng.one_of(&[16_385, 16_386, 65_535]),
        },
        2 => filing.vertices[v].0 = rng.between(2, 255) as u8,
        3 => filing.vertices[v].1 = 255,
        5 => move_count(filing, v, rng),
        6 => filing.targets[e] = rng.one_of(&[filing.n, 2_048, 65_535]).max(filing.n),
        7 => repeat_target(filing, rng),
        _ => match rng.below(3) {
            0 => filing.vertices[v].2 += 1,
            1 => filing.vertices[v].2 -= 1,
            // Off by 65,536, which a sum of 16 bits would not show.
            _ => {
                let w = rng.below(filing.vertices.len());
                filing.vertices[v].2 = filing.vertices[v].2.wrapping_add(32_768);
                filing.vertices[w].2 = filing.vertices[w].2.wrapping_add(32_768);
            }
        },
    }
}

/// Hands all of one vertex's successors to another, so that the sum stays right.
fn move_count(filing: &mut Filing, v: usize, rng: &mut Prng) {
    let w = rng.below(filing.vertices.len());
    if v != w {
        filing.vertices[w].2 += filing.vertices[v].2;
        filing.vertices[v].2 = 0;
    }
}

/// Makes a target equal to the one before it in the same vertex, if some vertex has two.
fn repeat_target(filing: &mut Filing, rng: &mut Prng) {
    let mut begin = 0;
    let mut places = Vec::new();
    for vertex in &filing.vertices {
        let end = (begin + vertex.2 as usize).min(filing.targets.len());
        places.extend(begin + 1..end);
        begin = end;
    }
    if !places.is_empty() {
        let e = rng.one_of(&places);
        filing.targets[e] = filing.targets[e - 1];
    }
}

fn damage_block(file: &mut [u8], rng: &mut Prng, damage: fn(&mut [u8], &mut Prng)) {
    let place = rng.below(file.len() / BLOCK);
    damage(&mut file[place * BLOCK..(place + 1) * BLOCK], rng);
}

/// Byte 3, the used count, the unused part, or the header's rule, under a good check.
fn spare_bytes(block: &mut [u8], rng: &mut Prng) {
    match rng.below(4) {
        0 => block[3] = rng.between(1, 255) as u8,
        1 => block[4] ^= 1 << rng.below(8),
        2 => block[5] ^= 1 << rng.below(8),
        _ => {
            // In the header the rule or the unused part; in another block the end, if it is unused.
            let from = if block[2] == 1 { 10 } else { 509 };
            block[rng.between(from, 509)] ^= 2;
        }
    }
    seal(block);
}

fn number_or_kind(block: &mut [u8], rng: &mut Prng) {
    let place = rng.below(3);
    block[place] ^= 1 << rng.below(8);
    seal(block);
}

/// One bit anywhere, under the check that was right before, or in it.
fn any_bit(block: &mut [u8], rng: &mut Prng) {
    block[rng.below(BLOCK)] ^= 1 << rng.below(8);
}

fn cut_or_stretch(file: &mut Vec<u8>, rng: &mut Prng) {
    let length = match rng.below(5) {
        0 => file.len() - 1,
        1 => file.len() + 1,
        2 => file.len() - BLOCK,
        3 => file.len() + BLOCK,
        _ => rng.below(file.len()),
    };
    file.resize(length, 0);
}

/// One to three bytes changed anywhere, the checks made good again or not.
pub fn bytes(file: &mut [u8], repaired: bool, rng: &mut Prng) {
    for _ in 0..rng.between(1, 3) {
        // Half of the changes fall on the first bytes of a block or its last, where the rules are.
        let place = match rng.below(4) {
            0 => rng.below(file.len() / BLOCK) * BLOCK + rng.below(16),
            1 => rng.below(file.len() / BLOCK) * BLOCK + rng.between(500, 511),
            _ => rng.below(file.len()),
        };
        let bit = 1 << rng.below(8);
        let any = rng.next() as u8;
        file[place] = rng.one_of(&[file[place] ^ bit, any, 0, 255]);
    }
    if repaired {
        seal_all(file);
    }
}
