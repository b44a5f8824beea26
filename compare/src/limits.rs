//! How lows and highs of drawn lines are chosen.

use crate::plant::{Line, HEADER, MOST_LITRES, TANK};
use crate::random::Rng;

/// How lows and highs are chosen.
#[derive(Clone, Copy, PartialEq, Eq)]
pub enum Limits {
    /// Lows all zero.
    NoLows,
    /// Low and high at will.
    Free,
    /// Many lines shut.
    Zeros,
    /// High lows that soon make a plant impossible.
    TightLows,
    /// Room around a lawful flow, so that the plant is possible.
    AroundFlow,
    /// Low and high both equal to a lawful flow.
    EqualToFlow,
    /// As before, but one or two lines are off.
    NearlyLawful,
}

/// The first four rarely make a large plant impossible.
pub const LIMITS: [Limits; 9] = [
    Limits::NoLows,
    Limits::NoLows,
    Limits::AroundFlow,
    Limits::AroundFlow,
    Limits::EqualToFlow,
    Limits::NearlyLawful,
    Limits::Free,
    Limits::Zeros,
    Limits::TightLows,
];
pub const EASY_LIMITS: usize = 4;

pub fn set_limits(rng: &mut Rng, junctions: usize, limits: Limits, lines: &mut [Line]) {
    let most = rng.pick(&[1, 2, 3, 9, 50, 5_000, MOST_LITRES]);
    let flow = match limits {
        Limits::AroundFlow | Limits::EqualToFlow | Limits::NearlyLawful => {
            lawful_flow(rng, junctions, lines, most)
        }
        _ => vec![0; lines.len()],
    };
    for (line, &flow) in lines.iter_mut().zip(&flow) {
        let (low, high) = limits_of(rng, limits, most, flow);
        line.low = low;
        line.high = high;
    }
    if limits == Limits::NearlyLawful && !lines.is_empty() {
        for _ in 0..rng.between(1, 2) {
            let line = rng.below(lines.len());
            let off = (lines[line].low + rng.pick(&[-1, 1])).clamp(0, MOST_LITRES);
            lines[line].low = off;
            lines[line].high = off.max(lines[line].high);
        }
    }
}

fn limits_of(rng: &mut Rng, limits: Limits, most: i64, flow: i64) -> (i64, i64) {
    match limits {
        Limits::NoLows => (0, rng.litres(0, most)),
        Limits::Free => {
            let high = rng.litres(0, most);
            (rng.litres(0, high), high)
        }
        Limits::Zeros => {
            let high = if rng.chance(1, 2) { 0 } else { rng.litres(0, most) };
            (if rng.chance(1, 12) { high } else { 0 }, high)
        }
        Limits::TightLows => {
            let high = rng.litres(0, most);
            (rng.litres(high / 2, high), high)
        }
        Limits::AroundFlow => {
            let low = if rng.chance(1, 2) { rng.litres(0, flow) } else { flow };
            let high = (flow + rng.litres(0, most)).min(MOST_LITRES);
            (low, if rng.chance(1, 4) { flow } else { high })
        }
        Limits::EqualToFlow | Limits::NearlyLawful => (flow, flow),
    }
}

/// Walks at will along the lines; what comes to the tank, or round to where
/// it began, adds to the flow.
fn lawful_flow(rng: &mut Rng, junctions: usize, lines: &[Line], most: i64) -> Vec<i64> {
    let mut leaving: Vec<Vec<usize>> = vec![Vec::new(); junctions];
    for (k, line) in lines.iter().enumerate() {
        leaving[line.from].push(k);
    }
    let mut flow = vec![0; lines.len()];
    for _ in 0..2 + lines.len() / 2 {
        let begin = if rng.chance(1, 4) { rng.below(junctions) } else { HEADER };
        let walk = match walk(rng, lines, &leaving, begin) {
            Some(walk) => walk,
            None => continue,
        };
        let room = walk.iter().map(|&k| MOST_LITRES - flow[k]).min().unwrap_or(0);
        let amount = rng.litres(0, most).min(room);
        for k in walk {
            flow[k] += amount;
        }
    }
    flow
}

/// A walk without repeated lines from the header to the tank, or from an
/// inner junction back to itself.
fn walk(rng: &mut Rng, lines: &[Line], leaving: &[Vec<usize>], begin: usize) -> Option<Vec<usize>> {
    let mut walk: Vec<usize> = Vec::new();
    let mut place = begin;
    loop {
        if leaving[place].is_empty() {
            return None;
        }
        let k = rng.pick(&leaving[place]);
        if walk.contains(&k) {
            return None;
        }
        walk.push(k);
        place = lines[k].to;
        if place == begin || (place == TANK && begin == HEADER) {
            return Some(walk);
        }
    }
}
