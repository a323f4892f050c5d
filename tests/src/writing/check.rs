//! One set of tables written with many rooms: what a writer returns and writes is held to the second
//! writer.

use super::{put, sheet, Outcome, Written};
use crate::generate::Random;
use crate::oracle::{LINE, MAX_BYTES};
use crate::tables::Tables;

/// Bytes before and after a lent buffer that must stay as they are.
pub const GUARD: usize = 8;
/// The rooms next to a sheet's length that are tried, to each side: more than a line.
const AROUND: usize = LINE + 1;
/// Room far beyond any sheet.
const FAR: usize = MAX_BYTES + 5_000;

/// What is tried with some tables.
pub struct Trial {
    /// What the second writer makes of them.
    pub outcome: Outcome,
    /// The rooms lent, one after another.
    pub rooms: Vec<usize>,
    /// What the buffer, with what is around it, holds at first.
    noise: Vec<u8>,
}

impl Trial {
    pub fn new(r: &mut Random, tables: &Tables) -> Trial {
        let outcome = sheet(tables);
        let rooms = rooms(r, tables, &outcome);
        let most = rooms.iter().max().copied().unwrap_or(0);
        let noise = (0..most + 2 * GUARD).map(|_| r.word() as u8).collect();
        Trial {
            outcome,
            rooms,
            noise,
        }
    }

    /// Has the tables written once for each room. Returns what is not as the second writer has it,
    /// the first of it.
    pub fn differs(&self, writer: &mut dyn FnMut(&mut [u8]) -> Written) -> Option<String> {
        let mut got = self.noise.clone();
        let mut expected = self.noise.clone();
        for &room in &self.rooms {
            let (all, lent) = (..room + 2 * GUARD, GUARD..GUARD + room);
            got[all].copy_from_slice(&self.noise[all]);
            expected[all].copy_from_slice(&self.noise[all]);
            let should = put(&self.outcome, &mut expected[lent.clone()]);
            let figures = writer(&mut got[lent]);
            if figures != should {
                return Some(format!(
                    "room {room}:\n  second writer: {should:?}\n  this one:      {figures:?}"
                ));
            }
            if got[all] != expected[all] {
                let mut pairs = got.iter().zip(&expected);
                let at = pairs.position(|(got, expected)| got != expected)?;
                return Some(format!(
                    "room {room}: byte {} of the buffer, counted from 0, is {} and not {}",
                    at as i64 - GUARD as i64,
                    got[at],
                    expected[at]
                ));
            }
        }
        None
    }
}

/// The bytes that these counts ask for.
fn asked(tables: &Tables) -> usize {
    let lines = [1, tables.gates, tables.rules, tables.wishes, 1].map(u64::from);
    let bytes = lines.iter().sum::<u64>() * LINE as u64;
    bytes.min(FAR as u64) as usize
}

/// The rooms to be tried: of tables that are written, all around the length of their sheet.
fn rooms(r: &mut Random, tables: &Tables, outcome: &Outcome) -> Vec<usize> {
    let mut rooms = vec![0, 1, r.below(FAR), MAX_BYTES, FAR];
    let need = asked(tables);
    match outcome {
        Ok(_) => rooms.extend(need.saturating_sub(AROUND)..=need + AROUND),
        // Told before a want of room, with room and without.
        Err(_) => rooms.extend([LINE, need - 1, need]),
    }
    rooms
}
