//! The planner's own procedure, step by step: two stages of discharges with
//! active junctions taken in order of arrival. Fixes which flow is shown.

use crate::plant::{members, Aim, Line, Plant, Verdict, HEADER, TANK};
use std::collections::VecDeque;

/// Work done in one stage.
#[derive(Clone, Copy, PartialEq, Eq, Debug, Default)]
pub struct Tally {
    pub relabels: u64,
    pub discharges: u64,
}

/// What the procedure ends with; the flow counts only if feasible.
pub struct Outcome {
    pub verdict: Verdict,
    pub flow: Vec<i64>,
    pub tallies: [Tally; 2],
}

pub fn plan(plant: &Plant, aim: Aim) -> Outcome {
    let count = plant.lines.len();
    let source = plant.junctions;
    let mut first = Stage::new(plant.junctions + 2, source, source + 1, feasibility_lines(plant));
    first.run();
    let full = |k: usize| first.lines[k].from != source || first.flow[k] == first.lines[k].high;
    if !(count..first.lines.len()).all(full) {
        return impossible(plant, &first);
    }

    let (start, goal) = match aim {
        Aim::Greatest => (HEADER, TANK),
        Aim::Least => (TANK, HEADER),
    };
    let mut second = Stage::new(plant.junctions, start, goal, plant.lines.clone());
    for k in 0..count {
        second.flow[k] = first.flow[k] + plant.lines[k].low;
    }
    second.run();
    feasible(plant, aim, &first, second)
}

/// Lines of the first stage: the plant's without their lows, the way back
/// from tank to header, then supplies and demands by junction.
fn feasibility_lines(plant: &Plant) -> Vec<Line> {
    let source = plant.junctions;
    let sink = plant.junctions + 1;
    let mut lines: Vec<Line> = Vec::new();
    let mut surplus = vec![0; plant.junctions];
    let mut all_highs = 0;
    for line in &plant.lines {
        lines.push(Line { low: 0, high: line.high - line.low, ..*line });
        surplus[line.to] += line.low;
        surplus[line.from] -= line.low;
        all_highs += line.high;
    }
    lines.push(Line { from: TANK, to: HEADER, low: 0, high: all_highs });
    for (v, &surplus) in surplus.iter().enumerate() {
        let (from, to) = if surplus > 0 { (source, v) } else { (v, sink) };
        if surplus != 0 {
            lines.push(Line { from, to, low: 0, high: surplus.abs() });
        }
    }
    lines
}

fn impossible(plant: &Plant, first: &Stage) -> Outcome {
    let source = plant.junctions;
    let mut hurdle = first.reached_from(source);
    hurdle[source] = false;
    let unfilled = |k: &usize| first.lines[*k].from == source;
    let shortfall =
        (0..first.lines.len()).filter(unfilled).map(|k| first.lines[k].high - first.flow[k]).sum();
    Outcome {
        verdict: Verdict::Impossible { shortfall, hurdle: members(&hurdle) },
        flow: Vec::new(),
        tallies: [first.tally, Tally::default()],
    }
}

fn feasible(plant: &Plant, aim: Aim, first: &Stage, second: Stage) -> Outcome {
    let (near, beyond_far) = match aim {
        Aim::Greatest => (second.reached_from(HEADER), second.reaching(TANK)),
        Aim::Least => (second.reaching(HEADER), second.reached_from(TANK)),
    };
    let far: Vec<bool> = beyond_far.iter().map(|beyond| !beyond).collect();
    let leaving = |k: &usize| plant.lines[*k].from == HEADER;
    let total = (0..plant.lines.len()).filter(leaving).map(|k| second.flow[k]).sum();
    Outcome {
        verdict: Verdict::Feasible { total, near: members(&near), far: members(&far) },
        tallies: [first.tally, second.tally],
        flow: second.flow,
    }
}

struct Stage {
    junctions: usize,
    start: usize,
    goal: usize,
    lines: Vec<Line>,
    /// Numbers of the lines touching each junction, rising.
    touching: Vec<Vec<usize>>,
    flow: Vec<i64>,
    excess: Vec<i64>,
    label: Vec<usize>,
    /// Active junctions in order of arrival.
    arrivals: VecDeque<usize>,
    tally: Tally,
}

impl Stage {
    /// A stage with all flows at zero.
    fn new(junctions: usize, start: usize, goal: usize, lines: Vec<Line>) -> Stage {
        let mut touching = vec![Vec::new(); junctions];
        for (k, line) in lines.iter().enumerate() {
            touching[line.from].push(k);
            touching[line.to].push(k);
        }
        Stage {
            junctions,
            start,
            goal,
            flow: vec![0; lines.len()],
            lines,
            touching,
            excess: vec![0; junctions],
            label: vec![0; junctions],
            arrivals: VecDeque::new(),
            tally: Tally::default(),
        }
    }

    fn run(&mut self) {
        self.measure_excess();
        self.begin();
        while let Some(v) = self.arrivals.pop_front() {
            self.discharge(v);
        }
    }

    fn measure_excess(&mut self) {
        for k in 0..self.lines.len() {
            self.excess[self.lines[k].to] += self.flow[k];
            self.excess[self.lines[k].from] -= self.flow[k];
        }
    }

    /// Labels the start and pushes every residual out of it whole.
    fn begin(&mut self) {
        self.label[self.start] = self.junctions;
        for k in self.touching[self.start].clone() {
            let residual = self.residual(self.start, k);
            self.push(self.start, k, residual);
        }
        for v in 0..self.junctions {
            if self.is_active(v) {
                self.arrivals.push_back(v);
            }
        }
    }

    /// One examination of an active junction.
    fn discharge(&mut self, v: usize) {
        self.tally.discharges += 1;
        for place in 0..self.touching[v].len() {
            let k = self.touching[v][place];
            let w = self.other_end(v, k);
            let residual = self.residual(v, k);
            if residual > 0 && self.label[v] == self.label[w] + 1 {
                let was_active = self.is_active(w);
                self.push(v, k, residual.min(self.excess[v]));
                if self.is_active(w) && !was_active {
                    self.arrivals.push_back(w);
                }
            }
            if self.excess[v] == 0 {
                return;
            }
        }
        self.relabel(v);
        self.arrivals.push_back(v);
    }

    fn relabel(&mut self, v: usize) {
        self.tally.relabels += 1;
        let ways = self.touching[v].iter().filter(|&&k| self.residual(v, k) > 0);
        let lowest = ways.map(|&k| self.label[self.other_end(v, k)]).min();
        self.label[v] = 1 + lowest.expect("excess can always go back");
    }

    fn push(&mut self, v: usize, k: usize, amount: i64) {
        let w = self.other_end(v, k);
        if self.lines[k].from == v {
            self.flow[k] += amount;
        } else {
            self.flow[k] -= amount;
        }
        self.excess[v] -= amount;
        self.excess[w] += amount;
    }

    fn is_active(&self, v: usize) -> bool {
        self.excess[v] > 0 && v != self.start && v != self.goal
    }

    fn other_end(&self, v: usize, k: usize) -> usize {
        let line = &self.lines[k];
        if line.from == v {
            line.to
        } else {
            line.from
        }
    }

    /// How much a junction may still push along a line touching it.
    fn residual(&self, v: usize, k: usize) -> i64 {
        let line = &self.lines[k];
        if line.from == v {
            line.high - self.flow[k]
        } else {
            self.flow[k] - line.low
        }
    }

    /// Junctions that residuals lead to from one junction.
    fn reached_from(&self, v: usize) -> Vec<bool> {
        self.spread(v, |stage, near, _, k| stage.residual(near, k))
    }

    /// Junctions from which residuals lead to one junction.
    fn reaching(&self, v: usize) -> Vec<bool> {
        self.spread(v, |stage, _, beyond, k| stage.residual(beyond, k))
    }

    fn spread<F>(&self, v: usize, residual: F) -> Vec<bool>
    where
        F: Fn(&Stage, usize, usize, usize) -> i64,
    {
        let mut marks = vec![false; self.junctions];
        marks[v] = true;
        let mut queue = VecDeque::new();
        queue.push_back(v);
        while let Some(near) = queue.pop_front() {
            for &k in &self.touching[near] {
                let beyond = self.other_end(near, k);
                if !marks[beyond] && residual(self, near, beyond, k) > 0 {
                    marks[beyond] = true;
                    queue.push_back(beyond);
                }
            }
        }
        marks
    }
}
