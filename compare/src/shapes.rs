//! How the lines of a plant are drawn, before they get limits.

use crate::plant::{Line, HEADER, TANK};
use crate::random::Rng;

#[derive(Clone, Copy, PartialEq, Eq)]
pub enum Shape {
    Random,
    Parallel,
    DeadEnds,
    Unreachable,
    LongPath,
    Layered,
    Grid,
}

pub const SHAPES: [Shape; 7] = [
    Shape::Random,
    Shape::Parallel,
    Shape::DeadEnds,
    Shape::Unreachable,
    Shape::LongPath,
    Shape::Layered,
    Shape::Grid,
];

fn undrawn(from: usize, to: usize) -> Line {
    Line { from, to, low: 0, high: 0 }
}

/// A line that neither ends at the header nor leaves the tank, with both
/// ends in the first junctions of the plant; header and tank come up often.
fn any_line(rng: &mut Rng, junctions: usize) -> Line {
    loop {
        let from = if rng.chance(1, 10) { HEADER } else { rng.below(junctions) };
        let to = if rng.chance(1, 10) { TANK } else { rng.below(junctions) };
        if from != to && from != TANK && to != HEADER {
            return undrawn(from, to);
        }
    }
}

pub fn drawn_lines(rng: &mut Rng, shape: Shape, junctions: usize, count: usize) -> Vec<Line> {
    let mut lines = match shape {
        Shape::Random => Vec::new(),
        Shape::Parallel => parallel_lines(rng, junctions, count),
        Shape::DeadEnds => dead_ends(rng, junctions, count),
        Shape::Unreachable => unreachable_part(rng, junctions, count),
        Shape::LongPath => long_path(rng, junctions),
        Shape::Layered => layers(rng, junctions, count),
        Shape::Grid => grid(rng, junctions),
    };
    // Some shapes stay pure, others get lines at will up to the count.
    if shape == Shape::Random || rng.chance(1, 4) {
        while lines.len() < count {
            lines.push(any_line(rng, junctions));
        }
    }
    if rng.chance(1, 2) {
        shuffle(rng, &mut lines);
    }
    lines
}

fn shuffle(rng: &mut Rng, lines: &mut [Line]) {
    for k in (1..lines.len()).rev() {
        let other = rng.below(k + 1);
        lines.swap(k, other);
    }
}

/// A few pairs of junctions, each joined many times.
fn parallel_lines(rng: &mut Rng, junctions: usize, count: usize) -> Vec<Line> {
    let pairs = rng.between(1, 1 + count / 3);
    let kinds: Vec<Line> = (0..pairs).map(|_| any_line(rng, junctions)).collect();
    (0..count).map(|_| rng.pick(&kinds)).collect()
}

/// Each inner junction hangs on an earlier one; few lead on to the tank.
fn dead_ends(rng: &mut Rng, junctions: usize, count: usize) -> Vec<Line> {
    let mut lines = Vec::new();
    for v in 2..junctions {
        let parent = if v == 2 || rng.chance(1, 4) { HEADER } else { rng.between(2, v - 1) };
        if rng.chance(1, 6) {
            lines.push(undrawn(v, if parent == HEADER { TANK } else { parent }));
        } else {
            lines.push(undrawn(parent, v));
        }
    }
    for _ in 0..1 + count / 20 {
        let from = rng.below(junctions);
        lines.push(undrawn(if from == TANK { HEADER } else { from }, TANK));
    }
    lines
}

/// The upper half of the junctions is joined only within itself, or only
/// outward, or only inward.
fn unreachable_part(rng: &mut Rng, junctions: usize, count: usize) -> Vec<Line> {
    let middle = 2 + (junctions - 2) / 2;
    let way = rng.below(3);
    let mut lines = Vec::new();
    for _ in 0..count {
        let upper = junctions - middle;
        if upper >= 2 && rng.chance(2, 5) {
            let from = rng.below(upper);
            let to = (from + rng.between(1, upper - 1)) % upper;
            lines.push(undrawn(middle + from, middle + to));
        } else if upper >= 1 && way > 0 && rng.chance(1, 5) {
            let inner = middle + rng.below(upper);
            let outer = rng.below(middle);
            if way == 1 && outer != HEADER {
                lines.push(undrawn(inner, outer));
            } else if way == 2 && outer != TANK {
                lines.push(undrawn(outer, inner));
            }
        } else {
            lines.push(any_line(rng, middle));
        }
    }
    lines
}

/// Header, all inner junctions in turn, tank.
fn long_path(rng: &mut Rng, junctions: usize) -> Vec<Line> {
    let mut stops = vec![HEADER];
    if rng.chance(1, 2) {
        stops.extend(2..junctions);
    } else {
        stops.extend((2..junctions).rev());
    }
    stops.push(TANK);
    let mut lines: Vec<Line> = stops.windows(2).map(|pair| undrawn(pair[0], pair[1])).collect();
    if rng.chance(1, 3) {
        // A second way along the same path.
        lines.extend(lines.clone());
    }
    lines
}

/// Wide lines but for those that end at the tank.
pub fn narrow_end(rng: &mut Rng, lines: &mut [Line]) {
    for line in lines {
        if line.to == TANK {
            line.high = line.low.max(rng.litres(0, 2));
        } else {
            line.high = line.high.max(rng.litres(3, 9));
        }
    }
}

fn layers(rng: &mut Rng, junctions: usize, count: usize) -> Vec<Line> {
    let width = rng.between(1, 1 + junctions / 3);
    let inner = junctions - 2;
    let depth = inner.div_ceil(width);
    let layer_of = |v: usize| (v - 2) / width;
    let mut lines = Vec::new();
    for v in 2..junctions {
        if layer_of(v) == 0 {
            lines.push(undrawn(HEADER, v));
        }
        if layer_of(v) + 1 == depth {
            lines.push(undrawn(v, TANK));
        } else {
            for _ in 0..rng.between(1, 1 + count / junctions) {
                let next = 2 + (layer_of(v) + 1) * width;
                let last = (next + width).min(junctions) - 1;
                lines.push(undrawn(v, rng.between(next, last)));
            }
        }
    }
    if rng.chance(1, 3) {
        lines.push(undrawn(HEADER, TANK));
    }
    lines
}

/// Inner junctions in rows, joined to the right and down, some both ways.
fn grid(rng: &mut Rng, junctions: usize) -> Vec<Line> {
    let inner = junctions - 2;
    let width = (1..=inner).find(|width| width * width >= inner).unwrap_or(1);
    let both_ways = rng.chance(1, 2);
    let mut lines = Vec::new();
    for place in 0..inner {
        let v = 2 + place;
        if place % width == 0 {
            lines.push(undrawn(HEADER, v));
        }
        let right = if place % width + 1 < width { place + 1 } else { inner };
        if right < inner {
            lines.push(undrawn(v, 2 + right));
        } else {
            lines.push(undrawn(v, TANK));
        }
        if place + width < inner {
            lines.push(undrawn(v, v + width));
            if both_ways {
                lines.push(undrawn(v + width, v));
            }
        }
    }
    lines
}
