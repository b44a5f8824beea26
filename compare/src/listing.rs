//! The text predicted for a plant file.

use crate::plant::{self, Aim, Decline, PlantFile, Verdict};
use crate::procedure;

/// The listing, or the line that declines the file.
pub fn expect(bytes: &[u8]) -> String {
    match plant::read(bytes) {
        Ok(file) => listing(&file),
        Err(decline) => declined(decline),
    }
}

pub fn declined(decline: Decline) -> String {
    format!("DECLINED {}\n", decline as u8)
}

fn listing(file: &PlantFile) -> String {
    let outcome = procedure::plan(&file.plant, file.aim);
    let mut text = first_line(&outcome.verdict, file.aim);
    if outcome.verdict.total().is_some() {
        for (k, flow) in outcome.flow.iter().enumerate() {
            text += &format!("{k} {flow}\n");
        }
    }
    text += &set_lines(&outcome.verdict);
    for trial in &file.trials {
        let verdict = procedure::plan(&file.plant.with_trial(trial), file.aim).verdict;
        text += &trial_line(trial.line, &verdict);
    }
    text
}

/// Aim and total, or the shortfall of an impossible plant.
pub fn first_line(verdict: &Verdict, aim: Aim) -> String {
    match (verdict, aim) {
        (Verdict::Feasible { total, .. }, Aim::Greatest) => format!("GREATEST {total}\n"),
        (Verdict::Feasible { total, .. }, Aim::Least) => format!("LEAST {total}\n"),
        (Verdict::Impossible { shortfall, .. }, _) => format!("IMPOSSIBLE {shortfall}\n"),
    }
}

/// Near and far cut, or the hurdle.
pub fn set_lines(verdict: &Verdict) -> String {
    match verdict {
        Verdict::Feasible { near, far, .. } => set_line("NEAR", near) + &set_line("FAR", far),
        Verdict::Impossible { hurdle, .. } => set_line("HURDLE", hurdle),
    }
}

fn set_line(word: &str, junctions: &[usize]) -> String {
    let mut text = String::from(word);
    for v in junctions {
        text += &format!(" {v}");
    }
    text + "\n"
}

pub fn trial_line(line: usize, verdict: &Verdict) -> String {
    match verdict.total() {
        Some(total) => format!("TRIAL {line} {total}\n"),
        None => format!("TRIAL {line} NONE\n"),
    }
}
