//! The house game file: a maker, which also makes files that break the rules, a reader, and what
//! a writer must say.

use crate::game::{Tables, MOST_EDGES, MOST_VERTICES};
use crate::judge::{self, Fault};

pub const BLOCK: usize = 512;
const PAYLOAD: usize = 6;
const CHECK: usize = 510;
const HEADER_USED: usize = 5;
const VERTICES_A_BLOCK: usize = 126;
const TARGETS_A_BLOCK: usize = 252;

/// The fixed lengths of the reader's tables: owners, priorities, starts, targets.
pub const ROOM: [usize; 4] = [MOST_VERTICES, MOST_VERTICES, MOST_VERTICES + 1, MOST_EDGES];

/// What a file states; a maker of wrong files changes it at will.
#[derive(Clone)]
pub struct Filing {
    pub n: u16,
    pub edges: u16,
    pub rule: u8,
    /// Owner, priority, number of successors.
    pub vertices: Vec<(u8, u8, u16)>,
    pub targets: Vec<u16>,
}

impl Filing {
    /// A game's tables, filed under a rule with the priorities as they stand.
    pub fn of(game: &Tables, rule: u8) -> Self {
        let vertices = (0..game.n())
            .map(|v| {
                (
                    game.owners[v],
                    game.priorities[v],
                    game.starts[v + 1].wrapping_sub(game.starts[v]),
                )
            })
            .collect();
        Filing {
            n: game.n() as u16,
            edges: game.targets.len() as u16,
            rule,
            vertices,
            targets: game.targets.clone(),
        }
    }

    pub fn bytes(&self) -> Vec<u8> {
        let mut file = Vec::new();
        let mut header = Vec::new();
        header.extend(self.n.to_le_bytes());
        header.extend(self.edges.to_le_bytes());
        header.push(self.rule);
        push_block(&mut file, 1, &header);
        for part in self.vertices.chunks(VERTICES_A_BLOCK) {
            let mut payload = Vec::new();
            for &(owner, priority, count) in part {
                payload.extend([owner, priority]);
                payload.extend(count.to_le_bytes());
            }
            push_block(&mut file, 2, &payload);
        }
        for part in self.targets.chunks(TARGETS_A_BLOCK) {
            let payload: Vec<u8> = part.iter().flat_map(|target| target.to_le_bytes()).collect();
            push_block(&mut file, 3, &payload);
        }
        file
    }
}

/// The exact length of a file.
pub fn length(n: usize, edges: usize) -> usize {
    BLOCK * (1 + n.div_ceil(VERTICES_A_BLOCK) + edges.div_ceil(TARGETS_A_BLOCK))
}

/// What the writer must say of these tables when its output has this length: the file, or the
/// refusal.
pub fn write(game: &Tables, room: usize) -> Result<Vec<u8>, Fault> {
    if let Some(fault) = judge::tables(game) {
        return Err(fault);
    }
    let file = Filing::of(game, 0).bytes();
    refuse(46, 0, room != file.len())?;
    Ok(file)
}

fn push_block(file: &mut Vec<u8>, kind: u8, payload: &[u8]) {
    let number = (file.len() / BLOCK) as u16;
    let mut block = [0; BLOCK];
    block[..2].copy_from_slice(&number.to_le_bytes());
    block[2] = kind;
    block[4..6].copy_from_slice(&(payload.len() as u16).to_le_bytes());
    block[PAYLOAD..PAYLOAD + payload.len()].copy_from_slice(payload);
    seal(&mut block);
    file.extend(block);
}

/// Gives a whole block the check that its other bytes demand.
pub fn seal(block: &mut [u8]) {
    let check = check_of(block) as u16;
    block[CHECK..BLOCK].copy_from_slice(&check.to_le_bytes());
}

pub fn seal_all(file: &mut [u8]) {
    file.chunks_exact_mut(BLOCK).for_each(seal);
}

fn check_of(block: &[u8]) -> u32 {
    let sum: u32 = (0..CHECK).map(|i| (i as u32 + 1) * block[i] as u32).sum();
    sum % 65_521
}

fn number_at(bytes: &[u8], place: usize) -> usize {
    u16::from_le_bytes([bytes[place], bytes[place + 1]]) as usize
}

/// What the reader must say of a file when its tables have these lengths: the tables, without the
/// zeros past those used, or the refusal.
pub fn read(file: &[u8], room: [usize; 4]) -> Result<Tables, Fault> {
    let whole = file.len() / BLOCK;
    refuse(41, whole, file.len() < BLOCK)?;
    judge_block(file, 0, 1, HEADER_USED)?;
    let (n, edges, rule) =
        (number_at(file, PAYLOAD), number_at(file, PAYLOAD + 2), file[PAYLOAD + 4]);
    refuse(44, 0, rule > 1)?;
    refuse(1, 0, n == 0 || n > MOST_VERTICES || edges > MOST_EDGES)?;
    let vertex_blocks = n.div_ceil(VERTICES_A_BLOCK);
    let target_blocks = edges.div_ceil(TARGETS_A_BLOCK);
    refuse(41, whole, file.len() != BLOCK * (1 + vertex_blocks + target_blocks))?;
    for i in 0..vertex_blocks {
        judge_block(file, 1 + i, 2, 4 * (n - i * VERTICES_A_BLOCK).min(VERTICES_A_BLOCK))?;
    }
    for i in 0..target_blocks {
        judge_block(
            file,
            1 + vertex_blocks + i,
            3,
            2 * (edges - i * TARGETS_A_BLOCK).min(TARGETS_A_BLOCK),
        )?;
    }
    let vertices = payloads(file, 1, vertex_blocks);
    let targets = payloads(file, 1 + vertex_blocks, target_blocks);
    let targets: Vec<u16> = (0..edges).map(|e| number_at(&targets, 2 * e) as u16).collect();
    judge_values(n, &vertices, &targets)?;
    refuse(8, 0, room != ROOM)?;
    Ok(tables_of(n, rule, &vertices, targets))
}

fn refuse(number: u64, place: usize, applies: bool) -> Result<(), Fault> {
    if applies {
        return Err(Fault { number, place: place as u64 });
    }
    Ok(())
}

/// Refuses with the first of the places, which come in ascending order.
fn refuse_lowest(number: u64, mut places: impl Iterator<Item = usize>) -> Result<(), Fault> {
    places.next().map_or(Ok(()), |place| refuse(number, place, true))
}

/// 42 to 44 on one block of the given kind and payload. The header's rule is no matter of this.
fn judge_block(file: &[u8], place: usize, kind: u8, used: usize) -> Result<(), Fault> {
    let block = &file[place * BLOCK..(place + 1) * BLOCK];
    refuse(42, place, number_at(block, CHECK) as u32 != check_of(block))?;
    refuse(43, place, number_at(block, 0) != place || block[2] != kind)?;
    let unused_set = block[PAYLOAD + used..CHECK].iter().any(|&byte| byte != 0);
    refuse(44, place, block[3] != 0 || number_at(block, 4) != used || unused_set)
}

/// The payloads of some blocks, end to end, with the last block's unused part.
fn payloads(file: &[u8], first: usize, count: usize) -> Vec<u8> {
    file[first * BLOCK..(first + count) * BLOCK]
        .chunks(BLOCK)
        .flat_map(|block| block[PAYLOAD..CHECK].iter().copied())
        .collect()
}

/// The rows on values, in their order.
fn judge_values(n: usize, vertices: &[u8], targets: &[u16]) -> Result<(), Fault> {
    let counts: Vec<usize> = (0..n).map(|v| number_at(vertices, 4 * v + 2)).collect();
    refuse(45, 0, counts.iter().sum::<usize>() != targets.len())?;
    refuse_lowest(2, (0..n).filter(|&v| vertices[4 * v] > 1))?;
    refuse_lowest(3, (0..n).filter(|&v| vertices[4 * v + 1] == 255))?;
    refuse_lowest(5, (0..n).filter(|&v| counts[v] == 0))?;
    refuse_lowest(6, (0..targets.len()).filter(|&e| targets[e] as usize >= n))?;
    let mut begin = 0;
    for count in counts {
        refuse_lowest(7, (begin + 1..begin + count).filter(|&e| targets[e] <= targets[e - 1]))?;
        begin += count;
    }
    Ok(())
}

fn tables_of(n: usize, rule: u8, vertices: &[u8], targets: Vec<u16>) -> Tables {
    let filed: Vec<u8> = (0..n).map(|v| vertices[4 * v + 1]).collect();
    let highest = filed.iter().copied().max().unwrap_or(0);
    let mut starts = vec![0];
    for v in 0..n {
        starts.push(starts[v] + number_at(vertices, 4 * v + 2) as u16);
    }
    Tables {
        owners: (0..n).map(|v| vertices[4 * v]).collect(),
        priorities: filed.into_iter().map(|p| if rule == 1 { highest - p } else { p }).collect(),
        starts,
        targets,
    }
}
