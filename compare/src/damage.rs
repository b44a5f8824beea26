//! Damaged plant files.

use crate::generate::{mixed_order, Foreseen};
use crate::plant::{
    self, Decline, Line, PlantFile, Trial, HEADER, MOST_JUNCTIONS, MOST_LINES, MOST_LITRES,
    MOST_TRIALS, TANK,
};
use crate::random::Rng;

const PLAIN_LINE: Line = Line { from: HEADER, to: TANK, low: 0, high: 5 };
const PLAIN_TRIAL: Trial = Trial { line: 0, low: 0, high: 7 };

/// A damaged file, with the decline where one damage alone decides it.
pub fn damaged(rng: &mut Rng, sound: &PlantFile) -> (Vec<u8>, Foreseen) {
    match rng.below(12) {
        0..=3 => damaged_bytes(rng, sound),
        4..=9 => {
            let (file, decline) = damaged_content(rng, sound);
            (plant::write(&file), decline.map_or(Foreseen::Accepted, Foreseen::Declined))
        }
        10 => {
            // Two faults of content: their order decides.
            let (once, _) = damaged_content(rng, sound);
            let (twice, _) = damaged_content(rng, &once);
            (plant::write(&twice), Foreseen::Open)
        }
        _ => {
            let (once, _) = damaged_content(rng, sound);
            let (bytes, _) = damaged_bytes(rng, &once);
            (bytes, Foreseen::Open)
        }
    }
}

/// Damage to the bytes of a file.
fn damaged_bytes(rng: &mut Rng, file: &PlantFile) -> (Vec<u8>, Foreseen) {
    let mut bytes = mixed_order(rng, file);
    let last = bytes.len() - 1;
    let decline = match rng.below(9) {
        0 | 1 => {
            bytes.truncate(rng.below(bytes.len()));
            Foreseen::Declined(Decline::EndsEarly)
        }
        2 => {
            bytes[0] = other_than(rng, b"N");
            Foreseen::Declined(Decline::NoCommand)
        }
        3 => {
            // Commands begin at 2 and then at every eleventh byte.
            let command = 2 + 11 * rng.below((last - 2) / 11 + 1);
            bytes[command] = other_than(rng, b"LTGM");
            Foreseen::Declined(Decline::NoCommand)
        }
        4 => {
            bytes[last] = b'N';
            Foreseen::Declined(Decline::NoCommand)
        }
        5 => {
            let after = rng.pick(&[b'N', b'L', b'T', b'G', b'M', 0, 10, 255]);
            bytes.push(after);
            Foreseen::Declined(Decline::BytesAfterAim)
        }
        6 => {
            let command = 2 + 11 * rng.below((last - 2) / 11 + 1);
            bytes[command] = rng.pick(b"GMLT");
            Foreseen::Open
        }
        7 => {
            let place = rng.below(bytes.len());
            bytes[place] = rng.below(256) as u8;
            Foreseen::Open
        }
        _ => {
            let place = rng.below(bytes.len());
            bytes.insert(place, rng.pick(&[b'N', b'L', b'T', b'G', b'M', 0, 1, 255]));
            Foreseen::Open
        }
    };
    (bytes, decline)
}

fn other_than(rng: &mut Rng, commands: &[u8]) -> u8 {
    loop {
        let near_miss = rng.pick(&[b'n', b'l', b't', b'g', b'm', b'N', b'L', b'T', 0, 10]);
        let byte = if rng.chance(1, 2) { near_miss } else { rng.below(256) as u8 };
        if !commands.contains(&byte) {
            return byte;
        }
    }
}

/// Damage to what a file says, or a number just within bounds.
fn damaged_content(rng: &mut Rng, sound: &PlantFile) -> (PlantFile, Option<Decline>) {
    let mut file = sound.clone();
    let decline = match rng.below(13) {
        0..=3 => damage_count(rng, &mut file),
        4..=9 => damage_line(rng, &mut file),
        _ => damage_trial(rng, &mut file),
    };
    (file, decline)
}

fn damage_count(rng: &mut Rng, file: &mut PlantFile) -> Option<Decline> {
    let plant = &mut file.plant;
    match rng.below(5) {
        0 => {
            plant.junctions = rng.pick(&[0, 1, 251, 255]);
            Some(Decline::JunctionCount)
        }
        1 => {
            plant.junctions = MOST_JUNCTIONS;
            None
        }
        2 => {
            // Few trials, since each of them costs time on so many lines.
            file.trials.truncate(2);
            let count = rng.pick(&[MOST_LINES, MOST_LINES + 1, MOST_LINES + 1, 1_100, 6_100]);
            plant.lines.resize(count, PLAIN_LINE);
            Some(Decline::LineCount).filter(|_| count > MOST_LINES)
        }
        _ => {
            plant.lines.push(PLAIN_LINE);
            let count = rng.pick(&[MOST_TRIALS, MOST_TRIALS + 1, MOST_TRIALS + 9]);
            file.trials.resize(count, PLAIN_TRIAL);
            Some(Decline::TrialCount).filter(|_| count > MOST_TRIALS)
        }
    }
}

fn damage_line(rng: &mut Rng, file: &mut PlantFile) -> Option<Decline> {
    let junctions = file.plant.junctions;
    let any = rng.below(junctions.max(1));
    let outside = rng.pick(&[junctions, junctions.max(250), 255]);
    let over = rng.pick(&[MOST_LITRES + 1, 1 << 24, (1 << 32) - 1]);
    let (line, decline) = match rng.below(9) {
        0 => (Line { to: outside, ..PLAIN_LINE }, Some(Decline::BadEnd)),
        1 => (Line { from: outside, ..PLAIN_LINE }, Some(Decline::BadEnd)),
        2 => (Line { from: any, to: any, ..PLAIN_LINE }, Some(Decline::BadEnd)),
        3 => (Line { from: any.max(1), to: HEADER, ..PLAIN_LINE }, Some(Decline::WrongWay)),
        4 if any != TANK => (Line { from: TANK, to: any, ..PLAIN_LINE }, Some(Decline::WrongWay)),
        5 => (Line { low: 6, ..PLAIN_LINE }, Some(Decline::Limits)),
        6 => (Line { high: over, ..PLAIN_LINE }, Some(Decline::Limits)),
        7 => (Line { low: over, high: over, ..PLAIN_LINE }, Some(Decline::Limits)),
        _ => (Line { high: MOST_LITRES, ..PLAIN_LINE }, None),
    };
    place(rng, &mut file.plant.lines, line);
    decline
}

fn damage_trial(rng: &mut Rng, file: &mut PlantFile) -> Option<Decline> {
    file.plant.lines.push(PLAIN_LINE);
    let count = file.plant.lines.len();
    let beyond = rng.pick(&[count, count + 1, 65_535]);
    let (trial, decline) = match rng.below(5) {
        0 => (Trial { line: beyond, ..PLAIN_TRIAL }, Some(Decline::NoSuchLine)),
        1 => (Trial { line: beyond, low: 8, ..PLAIN_TRIAL }, Some(Decline::NoSuchLine)),
        2 => (Trial { low: 8, ..PLAIN_TRIAL }, Some(Decline::Limits)),
        3 => (Trial { high: MOST_LITRES + 1, ..PLAIN_TRIAL }, Some(Decline::Limits)),
        _ => (Trial { line: count - 1, ..PLAIN_TRIAL }, None),
    };
    if file.trials.len() >= MOST_TRIALS {
        file.trials.truncate(MOST_TRIALS - 1);
    }
    place(rng, &mut file.trials, trial);
    decline
}

/// Puts an item at the end, or in the place of another.
fn place<T>(rng: &mut Rng, items: &mut Vec<T>, item: T) {
    if items.is_empty() || rng.chance(1, 3) {
        items.push(item);
    } else {
        let other = rng.below(items.len());
        items[other] = item;
    }
}
