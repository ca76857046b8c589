//! Games as text: a first line with the number of vertices, then a line a vertex: its owner, its
//! priority and its successors, in any order, some of them perhaps more than once.

use crate::game::{Tables, Vertex};
use crate::judge;
use crate::shapes::list;

pub fn read(text: &str) -> Result<Tables, String> {
    let mut lines = text.lines();
    let [n] = numbers(lines.next().unwrap_or(""))?[..] else {
        return Err("the first line is not one number".to_string());
    };
    let vertices: Vec<Vertex> = lines.map(vertex).collect::<Result<_, String>>()?;
    if vertices.len() != n as usize {
        return Err(format!("{} lines for {n} vertices", vertices.len()));
    }
    let game = Tables::of(&vertices);
    match judge::tables(&game) {
        Some(fault) => Err(format!("not a game: {fault:?}")),
        None => Ok(game),
    }
}

fn vertex(line: &str) -> Result<Vertex, String> {
    let numbers = numbers(line)?;
    let [owner, priority, next @ ..] = &numbers[..] else {
        return Err(format!("not a vertex: {line}"));
    };
    let byte = |number: u16| u8::try_from(number).map_err(|_| format!("not a vertex: {line}"));
    Ok(Vertex {
        owner: byte(*owner)?,
        priority: byte(*priority)?,
        next: list(next.iter().map(|&w| w as usize)),
    })
}

fn numbers(line: &str) -> Result<Vec<u16>, String> {
    line.split_whitespace()
        .map(|word| word.parse().map_err(|_| format!("not a number: {word}")))
        .collect()
}
