//! Plant files from seeds: plants of every shape, and damaged files.

use crate::damage::damaged;
use crate::limits::{set_limits, EASY_LIMITS, LIMITS};
use crate::plant::{
    self, Aim, Decline, Plant, PlantFile, Trial, HEADER, MOST_JUNCTIONS, MOST_LINES, MOST_LITRES,
    MOST_TRIALS, TANK,
};
use crate::random::Rng;
use crate::shapes::{drawn_lines, narrow_end, Shape, SHAPES};

/// What is known beforehand about how a file is read.
#[derive(Clone, Copy, PartialEq, Eq, Debug)]
pub enum Foreseen {
    Accepted,
    Declined(Decline),
    Open,
}

/// The file of a seed.
pub fn file(seed: u64) -> (Vec<u8>, Foreseen) {
    let mut rng = Rng::new(seed);
    let size = if seed % 512 == 511 {
        Size::Largest
    } else if seed % 64 == 63 {
        Size::Middle
    } else {
        Size::Small
    };
    let sound = sound_file(&mut rng, size);
    if size != Size::Largest && rng.chance(1, 5) {
        damaged(&mut rng, &sound)
    } else if rng.chance(1, 3) {
        (mixed_order(&mut rng, &sound), Foreseen::Accepted)
    } else {
        (plant::write(&sound), Foreseen::Accepted)
    }
}

#[derive(Clone, Copy, PartialEq, Eq)]
enum Size {
    Small,
    Middle,
    Largest,
}

fn sound_file(rng: &mut Rng, size: Size) -> PlantFile {
    let junctions = match size {
        Size::Small => rng.between(2, 9),
        Size::Middle => rng.between(10, 80),
        Size::Largest => rng.pick(&[200, 249, MOST_JUNCTIONS, MOST_JUNCTIONS]),
    };
    let count = match size {
        Size::Small => rng.between(0, 18),
        Size::Middle => rng.between(20, 300),
        Size::Largest => rng.pick(&[500, 999, MOST_LINES, MOST_LINES]),
    };
    let shape = rng.pick(&SHAPES);
    let mut lines = drawn_lines(rng, shape, junctions, count);
    lines.truncate(MOST_LINES);
    let easy = size != Size::Small && rng.chance(1, 2);
    let limits = rng.pick(if easy { &LIMITS[..EASY_LIMITS] } else { &LIMITS });
    set_limits(rng, junctions, limits, &mut lines);
    if shape == Shape::LongPath && rng.chance(2, 3) {
        narrow_end(rng, &mut lines);
    }
    let aim = if rng.chance(1, 2) { Aim::Greatest } else { Aim::Least };
    let plant = Plant { junctions, lines };
    let trials = trials(rng, size, &plant, aim);
    PlantFile { plant, trials, aim }
}

fn trials(rng: &mut Rng, size: Size, plant: &Plant, aim: Aim) -> Vec<Trial> {
    if plant.lines.is_empty() {
        return Vec::new();
    }
    let count = match size {
        Size::Small if rng.chance(1, 30) => rng.between(60, MOST_TRIALS),
        Size::Small => rng.between(0, 6),
        Size::Middle => rng.between(0, 20),
        Size::Largest => rng.pick(&[0, 8, 63, MOST_TRIALS]),
    };
    (0..count).map(|_| trial(rng, plant, aim)).collect()
}

fn trial(rng: &mut Rng, plant: &Plant, aim: Aim) -> Trial {
    let number = trial_place(rng, plant);
    let line = plant.lines[number];
    let (low, high) = match rng.below(8) {
        0 => (line.low, line.high),
        1 | 2 => match aim {
            Aim::Greatest => (line.low, (line.high + rng.litres(0, 5)).min(MOST_LITRES)),
            Aim::Least => ((line.low - rng.litres(0, 5)).max(0), line.high),
        },
        3 => (0, MOST_LITRES),
        4 => (MOST_LITRES, MOST_LITRES),
        5 => (0, 0),
        6 => (line.low, line.low),
        _ => {
            let high = rng.litres(0, line.high + 3).min(MOST_LITRES);
            (rng.litres(0, high), high)
        }
    };
    Trial { line: number, low, high }
}

/// Any line, with those at the header or the tank more often.
fn trial_place(rng: &mut Rng, plant: &Plant) -> usize {
    let at_end = |k: &usize| plant.lines[*k].from == HEADER || plant.lines[*k].to == TANK;
    let ends: Vec<usize> = (0..plant.lines.len()).filter(at_end).collect();
    if ends.is_empty() || rng.chance(1, 2) {
        rng.below(plant.lines.len())
    } else {
        rng.pick(&ends)
    }
}

/// The same file with lines and trials in mixed order.
pub fn mixed_order(rng: &mut Rng, file: &PlantFile) -> Vec<u8> {
    let mut bytes = vec![b'N', file.plant.junctions as u8];
    let mut lines = file.plant.lines.iter();
    let mut trials = file.trials.iter();
    loop {
        let trial_first = rng.chance(1, 3);
        let trial = if trial_first { trials.next() } else { None };
        if let Some(trial) = trial {
            bytes.extend(plant::trial_command(trial));
        } else if let Some(line) = lines.next() {
            bytes.extend(plant::line_command(line));
        } else if let Some(trial) = trials.next() {
            bytes.extend(plant::trial_command(trial));
        } else {
            break;
        }
    }
    bytes.push(plant::aim_command(file.aim));
    bytes
}
