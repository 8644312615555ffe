//! A program fed through a pipe piece by piece, and what it prints.

use std::io::{self, Write};
use std::process::{ChildStdin, Command, Stdio};
use std::thread;
use std::time::Duration;

use crate::generator::Random;

/// Bytes written at once; after a pause the program has most likely read them.
pub struct Piece<'a> {
    bytes: &'a [u8],
    pause: bool,
}

pub fn whole(text: &[u8]) -> Vec<Piece<'_>> {
    vec![Piece { bytes: text, pause: false }]
}

/// The text in pieces of one size, of any sizes, or with ends next to newlines.
pub fn cut<'a>(random: &mut Random, text: &'a [u8]) -> Vec<Piece<'a>> {
    let size = match random.below(4) {
        0 => random.pick(&[1, 2, 3, 7]),
        1 => random.between(79, 83),
        2 if text.len() > 4_095 => random.pick(&[4_095, 4_096, 4_097, 8_191, 8_192, 8_193]),
        _ => 0,
    };
    let longest = random.pick(&[5, 100, 10_000]);
    let by_lines = random.percent(50);
    let mut pieces = Vec::new();
    let mut rest = text;
    while !rest.is_empty() {
        let end = match size {
            0 if by_lines => next_to_newline(random, rest),
            0 => random.between(1, longest) as usize,
            size => size as usize,
        };
        let (bytes, after) = rest.split_at(end.min(rest.len()));
        pieces.push(Piece { bytes, pause: false });
        rest = after;
    }
    let count = pieces.len() as u64;
    for piece in &mut pieces {
        piece.pause = random.below(count) < 8;
    }
    pieces
}

/// An end just before, at or just after one of the next newlines.
fn next_to_newline(random: &mut Random, text: &[u8]) -> usize {
    let skipped = random.pick(&[0, 0, 1, 2, 30]);
    let mut newlines = text.iter().enumerate().filter(|(_, &byte)| byte == b'\n');
    let newline = newlines.nth(skipped).map_or(text.len(), |(place, _)| place);
    (newline + random.below(3) as usize).max(1)
}

/// What the program prints; it must read everything and end well.
pub fn output(program: &str, pieces: &[Piece]) -> Result<Vec<u8>, String> {
    let mut command = Command::new(program);
    let command = command.stdin(Stdio::piped()).stdout(Stdio::piped());
    let mut child = command.spawn().map_err(|error| format!("{program}: {error}"))?;
    let stdin = child.stdin.take().expect("a pipe");
    // the program may wait for its output to be read, so writing has its own thread
    thread::scope(|scope| {
        let writer = scope.spawn(|| write(stdin, pieces));
        let output = child.wait_with_output().map_err(|error| error.to_string())?;
        let written = writer.join().expect("the writer does not panic");
        if !output.status.success() {
            return Err(format!("the program ended with {}", output.status));
        }
        written.map_err(|error| format!("the program stopped reading: {error}"))?;
        Ok(output.stdout)
    })
}

fn write(mut stdin: ChildStdin, pieces: &[Piece]) -> io::Result<()> {
    for piece in pieces {
        stdin.write_all(piece.bytes)?;
        stdin.flush()?;
        if piece.pause {
            thread::sleep(Duration::from_micros(50));
        }
    }
    Ok(())
}
