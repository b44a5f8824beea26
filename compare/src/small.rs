//! Every plant file of a small world.

use crate::plant::{self, Aim, Line, Plant, PlantFile, Trial, HEADER, TANK};

/// Calls for each file of a small world: every list of up to three lines
/// over two to four junctions with highs up to two, either aim, every other
/// pair of limits tried on every line.
pub fn each_file<F: FnMut(Vec<u8>)>(mut call: F) {
    for junctions in 2..=4 {
        let kinds = small_lines(junctions);
        for count in 0..=3 {
            each_list(&kinds, count, &mut Vec::new(), &mut |lines: &[Line]| {
                for &aim in &[Aim::Greatest, Aim::Least] {
                    let plant = Plant { junctions, lines: lines.to_vec() };
                    call(plant::write(&PlantFile { trials: small_trials(&plant), plant, aim }));
                }
            });
        }
    }
}

fn each_list(kinds: &[Line], count: usize, list: &mut Vec<Line>, call: &mut dyn FnMut(&[Line])) {
    if list.len() == count {
        return call(list);
    }
    for &line in kinds {
        list.push(line);
        each_list(kinds, count, list, call);
        list.pop();
    }
}

const SMALL_LIMITS: [(i64, i64); 6] = [(0, 0), (0, 1), (0, 2), (1, 1), (1, 2), (2, 2)];

fn small_lines(junctions: usize) -> Vec<Line> {
    let mut kinds = Vec::new();
    for from in 0..junctions {
        for to in 0..junctions {
            if from != to && from != TANK && to != HEADER {
                for &(low, high) in &SMALL_LIMITS {
                    kinds.push(Line { from, to, low, high });
                }
            }
        }
    }
    kinds
}

fn small_trials(plant: &Plant) -> Vec<Trial> {
    let mut trials = Vec::new();
    for (k, line) in plant.lines.iter().enumerate() {
        for &(low, high) in &SMALL_LIMITS {
            if (low, high) != (line.low, line.high) {
                trials.push(Trial { line: k, low, high });
            }
        }
    }
    trials
}
