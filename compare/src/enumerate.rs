//! Answers for small plants by listing every cut, every set and every flow.

use crate::plant::{members, Aim, Plant, Verdict, HEADER, TANK};
use crate::solver::{bound, check_flow, is_hurdle_shape, shortfall, total};

/// Largest plant whose sets are all listed.
pub const MOST_LISTED_JUNCTIONS: usize = 9;
/// Most flows that are all listed.
const MOST_LISTED_FLOWS: i64 = 3_000;

/// Hurdle or cuts, each found among all sets of junctions.
pub fn by_sets(plant: &Plant, aim: Aim) -> Verdict {
    let sets = all_sets(plant.junctions);
    let hurdle_shapes: Vec<&Vec<bool>> = sets.iter().filter(|set| is_hurdle_shape(set)).collect();
    let worst = hurdle_shapes.iter().map(|set| shortfall(plant, set)).max().unwrap_or(0);
    if worst > 0 {
        let largest: Vec<&Vec<bool>> =
            hurdle_shapes.into_iter().filter(|set| shortfall(plant, set) == worst).collect();
        let hurdle = smallest(&largest);
        return Verdict::Impossible { shortfall: worst, hurdle: members(hurdle) };
    }
    let cuts: Vec<&Vec<bool>> = sets.iter().filter(|set| set[HEADER] && !set[TANK]).collect();
    let bounds = cuts.iter().map(|cut| bound(plant, aim, cut));
    let total = match aim {
        Aim::Greatest => bounds.min(),
        Aim::Least => bounds.max(),
    };
    let total = total.expect("the header alone is a cut");
    let tightest: Vec<&Vec<bool>> =
        cuts.into_iter().filter(|cut| bound(plant, aim, cut) == total).collect();
    let near = members(smallest(&tightest));
    let far = members(largest(&tightest));
    Verdict::Feasible { total, near, far }
}

/// The best total among all lawful flows: none if the flows are too many to
/// list, and within it none if no flow is lawful.
pub fn by_flows(plant: &Plant, aim: Aim) -> Option<Option<i64>> {
    let mut count = 1;
    for line in &plant.lines {
        count *= line.high - line.low + 1;
        if count > MOST_LISTED_FLOWS {
            return None;
        }
    }
    let mut totals = Vec::new();
    let mut flow: Vec<i64> = plant.lines.iter().map(|line| line.low).collect();
    loop {
        if check_flow(plant, &flow).is_ok() {
            totals.push(total(plant, &flow));
        }
        if !next_flow(plant, &mut flow) {
            break;
        }
    }
    Some(match aim {
        Aim::Greatest => totals.into_iter().max(),
        Aim::Least => totals.into_iter().min(),
    })
}

/// Counts up within the limits; false after the last flow.
fn next_flow(plant: &Plant, flow: &mut [i64]) -> bool {
    for (k, line) in plant.lines.iter().enumerate() {
        if flow[k] < line.high {
            flow[k] += 1;
            return true;
        }
        flow[k] = line.low;
    }
    false
}

fn all_sets(junctions: usize) -> Vec<Vec<bool>> {
    (0..1usize << junctions)
        .map(|bits| (0..junctions).map(|v| bits >> v & 1 == 1).collect())
        .collect()
}

/// The set that all others contain.
fn smallest<'a>(sets: &[&'a Vec<bool>]) -> &'a Vec<bool> {
    sets.iter().find(|set| sets.iter().all(|other| is_inside(set, other))).expect("a smallest set")
}

/// The set that contains all others.
fn largest<'a>(sets: &[&'a Vec<bool>]) -> &'a Vec<bool> {
    sets.iter().find(|set| sets.iter().all(|other| is_inside(other, set))).expect("a largest set")
}

fn is_inside(inner: &[bool], outer: &[bool]) -> bool {
    inner.iter().zip(outer).all(|(within, around)| !within || *around)
}
