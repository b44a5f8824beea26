//! Checks a printed text by the meaning of flow, cut and hurdle only.

use crate::listing::{declined, first_line, set_lines, trial_line};
use crate::plant::{self, PlantFile};
use crate::solver;

/// The first difference, if any.
pub fn check(bytes: &[u8], text: &[u8]) -> Result<(), String> {
    let mut rest = Text { rest: text, row: 0 };
    match plant::read(bytes) {
        Err(decline) => rest.require(&declined(decline))?,
        Ok(file) => check_listing(&file, &mut rest)?,
    }
    rest.require_end()
}

fn check_listing(file: &PlantFile, rest: &mut Text) -> Result<(), String> {
    let verdict = solver::solve(&file.plant, file.aim);
    rest.require(&first_line(&verdict, file.aim))?;
    if let Some(total) = verdict.total() {
        let mut flow = Vec::new();
        for k in 0..file.plant.lines.len() {
            flow.push(rest.flow_of(k)?);
        }
        solver::check_flow(&file.plant, &flow)?;
        let shown = solver::total(&file.plant, &flow);
        if shown != total {
            return Err(format!("the flow shown has total {shown}, wanted {total}"));
        }
    }
    rest.require(&set_lines(&verdict))?;
    for trial in &file.trials {
        let verdict = solver::solve(&file.plant.with_trial(trial), file.aim);
        rest.require(&trial_line(trial.line, &verdict))?;
    }
    Ok(())
}

/// The part of a text not yet checked.
struct Text<'a> {
    rest: &'a [u8],
    row: usize,
}

impl<'a> Text<'a> {
    /// Takes one row without its line end.
    fn row(&mut self) -> Result<&'a [u8], String> {
        self.row += 1;
        match self.rest.iter().position(|&byte| byte == b'\n') {
            Some(end) => {
                let row = &self.rest[..end];
                self.rest = &self.rest[end + 1..];
                Ok(row)
            }
            None => Err(format!("row {}: missing or without line end", self.row)),
        }
    }

    /// Takes rows that must read exactly as wanted.
    fn require(&mut self, wanted: &str) -> Result<(), String> {
        for want in wanted.lines() {
            let row = self.row()?;
            if row != want.as_bytes() {
                return Err(self.complaint(row, want));
            }
        }
        Ok(())
    }

    /// Takes the row of one line and gives its flow.
    fn flow_of(&mut self, k: usize) -> Result<i64, String> {
        let row = self.row()?;
        let shown = std::str::from_utf8(row).unwrap_or("");
        let flow = shown.split(' ').nth(1).and_then(|word| word.parse().ok()).unwrap_or(-1);
        let want = format!("{k} {flow}");
        if flow < 0 || shown != want {
            return Err(self.complaint(row, &format!("{k} and a flow")));
        }
        Ok(flow)
    }

    fn require_end(&self) -> Result<(), String> {
        if self.rest.is_empty() {
            Ok(())
        } else {
            Err(format!("row {}: more text than wanted", self.row + 1))
        }
    }

    fn complaint(&self, row: &[u8], want: &str) -> String {
        format!("row {}: shows \"{}\", wanted \"{want}\"", self.row, String::from_utf8_lossy(row))
    }
}
