//! The plant, and the reader and writer of plant files.

pub const HEADER: usize = 0;
pub const TANK: usize = 1;
pub const MOST_JUNCTIONS: usize = 250;
pub const MOST_LINES: usize = 1_000;
pub const MOST_TRIALS: usize = 64;
pub const MOST_LITRES: i64 = 1_000_000;

/// Why a file is declined; the number is what the planner prints.
#[derive(Clone, Copy, PartialEq, Eq, Debug)]
pub enum Decline {
    JunctionCount = 2,
    LineCount = 3,
    BadEnd = 4,
    WrongWay = 5,
    Limits = 6,
    NoSuchLine = 8,
    #[cfg_attr(not(feature = "linked"), allow(dead_code))]
    ShortBuffer = 9,
    TrialCount = 10,
    NoCommand = 11,
    EndsEarly = 12,
    BytesAfterAim = 13,
}

#[derive(Clone, Copy, PartialEq, Eq, Debug)]
pub enum Aim {
    Greatest,
    Least,
}

/// A pipe with the limits of its flow in litres an hour.
#[derive(Clone, Copy, PartialEq, Eq, Debug)]
pub struct Line {
    pub from: usize,
    pub to: usize,
    pub low: i64,
    pub high: i64,
}

/// Other limits to try on one line.
#[derive(Clone, Copy, PartialEq, Eq, Debug)]
pub struct Trial {
    pub line: usize,
    pub low: i64,
    pub high: i64,
}

#[derive(Clone, PartialEq, Eq, Debug)]
pub struct Plant {
    pub junctions: usize,
    pub lines: Vec<Line>,
}

#[derive(Clone, PartialEq, Eq, Debug)]
pub struct PlantFile {
    pub plant: Plant,
    pub trials: Vec<Trial>,
    pub aim: Aim,
}

/// The answer to one plant and aim, whichever flow is shown with it.
/// Sets of junctions are in rising order.
#[derive(Clone, PartialEq, Eq, Debug)]
pub enum Verdict {
    Feasible { total: i64, near: Vec<usize>, far: Vec<usize> },
    Impossible { shortfall: i64, hurdle: Vec<usize> },
}

impl Verdict {
    /// The total, or none for an impossible plant.
    pub fn total(&self) -> Option<i64> {
        match self {
            Verdict::Feasible { total, .. } => Some(*total),
            Verdict::Impossible { .. } => None,
        }
    }
}

impl Plant {
    /// The same plant with one line's limits replaced.
    pub fn with_trial(&self, trial: &Trial) -> Plant {
        let mut plant = self.clone();
        plant.lines[trial.line].low = trial.low;
        plant.lines[trial.line].high = trial.high;
        plant
    }
}

/// Numbers of the marked junctions in rising order.
pub fn members(marks: &[bool]) -> Vec<usize> {
    (0..marks.len()).filter(|&v| marks[v]).collect()
}

/// Reads a plant file and applies every test in its order.
pub fn read(bytes: &[u8]) -> Result<PlantFile, Decline> {
    let file = parse(bytes)?;
    test_list(&file.plant)?;
    for trial in &file.trials {
        test_trial(&file.plant, trial)?;
    }
    Ok(file)
}

/// Splits a file into its commands, stopping at the first fault.
fn parse(bytes: &[u8]) -> Result<PlantFile, Decline> {
    let mut rest = Rest { bytes };
    if rest.command()? != b'N' {
        return Err(Decline::NoCommand);
    }
    let junctions = rest.operand(1)? as usize;
    let mut lines = Vec::new();
    let mut trials = Vec::new();
    let aim = loop {
        match rest.command()? {
            b'L' => lines.push(Line {
                from: rest.operand(1)? as usize,
                to: rest.operand(1)? as usize,
                low: rest.operand(4)?,
                high: rest.operand(4)?,
            }),
            b'T' if trials.len() == MOST_TRIALS => return Err(Decline::TrialCount),
            b'T' => trials.push(Trial {
                line: rest.operand(2)? as usize,
                low: rest.operand(4)?,
                high: rest.operand(4)?,
            }),
            b'G' => break Aim::Greatest,
            b'M' => break Aim::Least,
            _ => return Err(Decline::NoCommand),
        }
    };
    if !rest.bytes.is_empty() {
        return Err(Decline::BytesAfterAim);
    }
    Ok(PlantFile { plant: Plant { junctions, lines }, trials, aim })
}

/// What is left to read of a file.
struct Rest<'a> {
    bytes: &'a [u8],
}

impl<'a> Rest<'a> {
    fn command(&mut self) -> Result<u8, Decline> {
        self.operand(1).map(|byte| byte as u8)
    }

    /// A number of the given width, highest byte first.
    fn operand(&mut self, width: usize) -> Result<i64, Decline> {
        if self.bytes.len() < width {
            return Err(Decline::EndsEarly);
        }
        let (number, rest) = self.bytes.split_at(width);
        self.bytes = rest;
        Ok(number.iter().fold(0, |value, &byte| value * 256 + i64::from(byte)))
    }
}

fn test_list(plant: &Plant) -> Result<(), Decline> {
    if plant.junctions < 2 || plant.junctions > MOST_JUNCTIONS {
        return Err(Decline::JunctionCount);
    }
    if plant.lines.len() > MOST_LINES {
        return Err(Decline::LineCount);
    }
    for line in &plant.lines {
        let outside = line.from >= plant.junctions || line.to >= plant.junctions;
        if outside || line.from == line.to {
            return Err(Decline::BadEnd);
        }
        if line.to == HEADER || line.from == TANK {
            return Err(Decline::WrongWay);
        }
        test_limits(line.low, line.high)?;
    }
    Ok(())
}

fn test_trial(plant: &Plant, trial: &Trial) -> Result<(), Decline> {
    if trial.line >= plant.lines.len() {
        return Err(Decline::NoSuchLine);
    }
    test_limits(trial.low, trial.high)
}

fn test_limits(low: i64, high: i64) -> Result<(), Decline> {
    if low > high || high > MOST_LITRES {
        return Err(Decline::Limits);
    }
    Ok(())
}

/// Writes the junction count, all lines, all trials and the aim.
pub fn write(file: &PlantFile) -> Vec<u8> {
    let mut bytes = vec![b'N', file.plant.junctions as u8];
    for line in &file.plant.lines {
        bytes.extend(line_command(line));
    }
    for trial in &file.trials {
        bytes.extend(trial_command(trial));
    }
    bytes.push(aim_command(file.aim));
    bytes
}

pub fn line_command(line: &Line) -> Vec<u8> {
    let mut bytes = vec![b'L', line.from as u8, line.to as u8];
    bytes.extend((line.low as u32).to_be_bytes());
    bytes.extend((line.high as u32).to_be_bytes());
    bytes
}

pub fn trial_command(trial: &Trial) -> Vec<u8> {
    let mut bytes = vec![b'T'];
    bytes.extend((trial.line as u16).to_be_bytes());
    bytes.extend((trial.low as u32).to_be_bytes());
    bytes.extend((trial.high as u32).to_be_bytes());
    bytes
}

pub fn aim_command(aim: Aim) -> u8 {
    match aim {
        Aim::Greatest => b'G',
        Aim::Least => b'M',
    }
}
