//! Solves a plant by shortest augmenting paths and certifies the answer by
//! the meaning of cuts and hurdles. Shares nothing with the procedure.

use crate::plant::{members, Aim, Line, Plant, Verdict, HEADER, TANK};

/// More than any sum of limits.
const UNBOUNDED: i64 = 1 << 50;

/// Feasibility, best total, cuts or hurdle of a plant.
pub fn solve(plant: &Plant, aim: Aim) -> Verdict {
    let mut network = Network::at_lows(plant);
    let mut surplus = network.imbalance();
    let mut lack: Vec<i64> = surplus.iter().map(|amount| -amount).collect();
    // Litres brought to the tank may go back to the header without limit.
    network.add(Line { from: TANK, to: HEADER, low: 0, high: UNBOUNDED });
    while network.augment(&mut surplus, &mut lack) {}
    if surplus.iter().any(|&amount| amount > 0) {
        return impossible(plant, &network, &surplus);
    }
    network.drop_last();
    let (source, sink) = match aim {
        Aim::Greatest => (HEADER, TANK),
        Aim::Least => (TANK, HEADER),
    };
    let mut supply = vec![0; plant.junctions];
    let mut demand = vec![0; plant.junctions];
    supply[source] = UNBOUNDED;
    demand[sink] = UNBOUNDED;
    while network.augment(&mut supply, &mut demand) {}
    feasible(plant, aim, &network)
}

/// The junctions cut off with the surplus that found no way out.
fn impossible(plant: &Plant, network: &Network, surplus: &[i64]) -> Verdict {
    let stuck: Vec<usize> = (0..plant.junctions).filter(|&v| surplus[v] > 0).collect();
    let hurdle = network.reach(&stuck, Network::residual);
    let shortfall = shortfall(plant, &hurdle);
    assert!(is_hurdle_shape(&hurdle), "the hurdle holds the tank without the header");
    assert_eq!(shortfall, surplus.iter().filter(|&&s| s > 0).sum::<i64>(), "shortfall");
    Verdict::Impossible { shortfall, hurdle: members(&hurdle) }
}

/// The cuts that hold back any better total.
fn feasible(plant: &Plant, aim: Aim, network: &Network) -> Verdict {
    let near = match aim {
        Aim::Greatest => network.reach(&[HEADER], Network::residual),
        Aim::Least => network.reach(&[HEADER], Network::residual_back),
    };
    let beyond_far = match aim {
        Aim::Greatest => network.reach(&[TANK], Network::residual_back),
        Aim::Least => network.reach(&[TANK], Network::residual),
    };
    let far: Vec<bool> = beyond_far.iter().map(|beyond| !beyond).collect();
    check_flow(plant, &network.flow).expect("the solver's flow is lawful");
    let total = total(plant, &network.flow);
    assert_eq!(bound(plant, aim, &near), total, "near cut is not tight");
    assert_eq!(bound(plant, aim, &far), total, "far cut is not tight");
    Verdict::Feasible { total, near: members(&near), far: members(&far) }
}

/// Litres an hour that leave the header.
pub fn total(plant: &Plant, flow: &[i64]) -> i64 {
    (0..plant.lines.len()).filter(|&k| plant.lines[k].from == HEADER).map(|k| flow[k]).sum()
}

/// Limits on every line, and balance at every inner junction.
pub fn check_flow(plant: &Plant, flow: &[i64]) -> Result<(), String> {
    let mut balance = vec![0; plant.junctions];
    for (k, line) in plant.lines.iter().enumerate() {
        if flow[k] < line.low || flow[k] > line.high {
            return Err(format!("line {k}: flow {} not in {}..{}", flow[k], line.low, line.high));
        }
        balance[line.from] -= flow[k];
        balance[line.to] += flow[k];
    }
    match (2..plant.junctions).find(|&v| balance[v] != 0) {
        Some(v) => Err(format!("junction {v}: inflow exceeds outflow by {}", balance[v])),
        None => Ok(()),
    }
}

/// What a cut lets through at most, or at least, by its crossing lines.
pub fn bound(plant: &Plant, aim: Aim, cut: &[bool]) -> i64 {
    let mut bound = 0;
    for line in &plant.lines {
        let (forward, backward) = match aim {
            Aim::Greatest => (line.high, line.low),
            Aim::Least => (line.low, line.high),
        };
        match (cut[line.from], cut[line.to]) {
            (true, false) => bound += forward,
            (false, true) => bound -= backward,
            _ => {}
        }
    }
    bound
}

/// Lows leading into a set less highs leading out of it.
pub fn shortfall(plant: &Plant, set: &[bool]) -> i64 {
    let mut shortfall = 0;
    for line in &plant.lines {
        match (set[line.from], set[line.to]) {
            (false, true) => shortfall += line.low,
            (true, false) => shortfall -= line.high,
            _ => {}
        }
    }
    shortfall
}

/// A hurdle may not hold the tank without the header.
pub fn is_hurdle_shape(set: &[bool]) -> bool {
    set[HEADER] || !set[TANK]
}

/// Lines with a flow within limits, balanced or not.
struct Network {
    junctions: usize,
    lines: Vec<Line>,
    flow: Vec<i64>,
    touching: Vec<Vec<usize>>,
}

impl Network {
    fn at_lows(plant: &Plant) -> Network {
        let mut network = Network {
            junctions: plant.junctions,
            lines: Vec::new(),
            flow: Vec::new(),
            touching: vec![Vec::new(); plant.junctions],
        };
        for line in &plant.lines {
            network.add(*line);
        }
        network
    }

    /// Adds a line with its low as flow.
    fn add(&mut self, line: Line) {
        self.touching[line.from].push(self.lines.len());
        self.touching[line.to].push(self.lines.len());
        self.flow.push(line.low);
        self.lines.push(line);
    }

    fn drop_last(&mut self) {
        let line = self.lines.pop().expect("a line to drop");
        self.flow.pop();
        self.touching[line.from].pop();
        self.touching[line.to].pop();
    }

    /// Inflow less outflow at each junction.
    fn imbalance(&self) -> Vec<i64> {
        let mut imbalance = vec![0; self.junctions];
        for (line, flow) in self.lines.iter().zip(&self.flow) {
            imbalance[line.from] -= flow;
            imbalance[line.to] += flow;
        }
        imbalance
    }

    /// The other end of a line and how much more may go there.
    fn residual(&self, v: usize, k: usize) -> (usize, i64) {
        let line = &self.lines[k];
        if line.from == v {
            (line.to, line.high - self.flow[k])
        } else {
            (line.from, self.flow[k] - line.low)
        }
    }

    /// The other end of a line and how much more may come from there.
    fn residual_back(&self, v: usize, k: usize) -> (usize, i64) {
        let line = &self.lines[k];
        if line.from == v {
            (line.to, self.flow[k] - line.low)
        } else {
            (line.from, line.high - self.flow[k])
        }
    }

    /// Marks what a chain of residuals reaches from any of the roots.
    fn reach(
        &self,
        roots: &[usize],
        residual: fn(&Network, usize, usize) -> (usize, i64),
    ) -> Vec<bool> {
        let mut reached = vec![false; self.junctions];
        let mut frontier = roots.to_vec();
        for &root in roots {
            reached[root] = true;
        }
        while let Some(v) = frontier.pop() {
            for &k in &self.touching[v] {
                let (w, room) = residual(self, v, k);
                if room > 0 && !reached[w] {
                    reached[w] = true;
                    frontier.push(w);
                }
            }
        }
        reached
    }

    /// Sends flow along one shortest path from a junction with supply to a
    /// junction with demand; false if there is none.
    fn augment(&mut self, supply: &mut [i64], demand: &mut [i64]) -> bool {
        let path = match self.shortest_path(supply, demand) {
            Some(path) => path,
            None => return false,
        };
        let root = path.root;
        let end = path.end;
        let mut amount = supply[root].min(demand[end]);
        for &(v, k) in &path.steps {
            amount = amount.min(self.residual(v, k).1);
        }
        for &(v, k) in &path.steps {
            let forward = self.lines[k].from == v;
            self.flow[k] += if forward { amount } else { -amount };
        }
        supply[root] -= amount;
        demand[end] -= amount;
        true
    }

    /// Breadth-first search from all junctions with supply at once.
    fn shortest_path(&self, supply: &[i64], demand: &[i64]) -> Option<Path> {
        let mut came_by: Vec<Option<(usize, usize)>> = vec![None; self.junctions];
        let mut reached = vec![false; self.junctions];
        let mut order: Vec<usize> = (0..self.junctions).filter(|&v| supply[v] > 0).collect();
        for &root in &order {
            reached[root] = true;
        }
        let mut next = 0;
        while next < order.len() {
            let v = order[next];
            next += 1;
            if demand[v] > 0 {
                return Some(Path::back_from(v, &came_by));
            }
            for &k in &self.touching[v] {
                let (w, room) = self.residual(v, k);
                if room > 0 && !reached[w] {
                    reached[w] = true;
                    came_by[w] = Some((v, k));
                    order.push(w);
                }
            }
        }
        None
    }
}

/// Steps as junction left and line taken, the last step first.
struct Path {
    root: usize,
    end: usize,
    steps: Vec<(usize, usize)>,
}

impl Path {
    fn back_from(end: usize, came_by: &[Option<(usize, usize)>]) -> Path {
        let mut root = end;
        let mut steps = Vec::new();
        while let Some((v, k)) = came_by[root] {
            steps.push((v, k));
            root = v;
        }
        Path { root, end, steps }
    }
}
