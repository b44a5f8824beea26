//! Known plants and their answers.

use crate::listing::expect;
use crate::plant::{read, write, Aim, Decline, Line, Plant, PlantFile, Trial, Verdict};
use crate::{agree, agree_on, check, enumerate, generate, procedure, solver, Foreseen};

fn plant(junctions: usize, lines: &[(usize, usize, i64, i64)]) -> Plant {
    let lines = lines.iter().map(|&(from, to, low, high)| Line { from, to, low, high }).collect();
    Plant { junctions, lines }
}

fn four_lines() -> Plant {
    plant(4, &[(0, 2, 2, 6), (2, 3, 0, 4), (3, 1, 1, 5), (2, 1, 0, 1)])
}

fn flows(total: i64, near: &[usize], far: &[usize]) -> Verdict {
    Verdict::Feasible { total, near: near.to_vec(), far: far.to_vec() }
}

/// All ways of answering give the verdict.
fn answers(plant: &Plant, aim: Aim, verdict: Verdict) {
    assert_eq!(solver::solve(plant, aim), verdict);
    assert_eq!(procedure::plan(plant, aim).verdict, verdict);
    assert_eq!(enumerate::by_sets(plant, aim), verdict);
    agree_on(plant, aim).expect("all ways agree");
}

fn tried(plant: &Plant, aim: Aim, line: usize, low: i64, high: i64) -> Option<i64> {
    let changed = plant.with_trial(&Trial { line, low, high });
    agree_on(&changed, aim).expect("all ways agree");
    solver::solve(&changed, aim).total()
}

#[test]
fn no_lines() {
    answers(&plant(2, &[]), Aim::Greatest, flows(0, &[0], &[0]));
    answers(&plant(2, &[]), Aim::Least, flows(0, &[0], &[0]));
    answers(&plant(3, &[]), Aim::Greatest, flows(0, &[0], &[0, 2]));
    answers(&plant(3, &[]), Aim::Least, flows(0, &[0], &[0, 2]));
}

#[test]
fn one_line() {
    let plant = plant(2, &[(0, 1, 4, 9)]);
    answers(&plant, Aim::Greatest, flows(9, &[0], &[0]));
    answers(&plant, Aim::Least, flows(4, &[0], &[0]));
}

#[test]
fn two_equal_lines_in_a_row() {
    let plant = plant(3, &[(0, 2, 0, 3), (2, 1, 0, 3)]);
    answers(&plant, Aim::Greatest, flows(3, &[0], &[0, 2]));
    assert_eq!(tried(&plant, Aim::Greatest, 0, 0, 4), Some(3));
}

#[test]
fn four_lines_greatest() {
    answers(&four_lines(), Aim::Greatest, flows(5, &[0, 2], &[0, 2]));
    assert_eq!(tried(&four_lines(), Aim::Greatest, 1, 0, 5), Some(6));
    assert_eq!(tried(&four_lines(), Aim::Greatest, 0, 2, 7), Some(5));
}

#[test]
fn four_lines_least() {
    answers(&four_lines(), Aim::Least, flows(2, &[0], &[0]));
    assert_eq!(tried(&four_lines(), Aim::Least, 0, 1, 6), Some(1));
}

#[test]
fn impossible_plant() {
    let plant = plant(3, &[(0, 2, 0, 2), (2, 1, 3, 5)]);
    let verdict = Verdict::Impossible { shortfall: 1, hurdle: vec![0, 1] };
    answers(&plant, Aim::Greatest, verdict.clone());
    answers(&plant, Aim::Least, verdict);
    assert_eq!(tried(&plant, Aim::Greatest, 0, 0, 3), Some(3));
    let trials = vec![Trial { line: 0, low: 0, high: 3 }, Trial { line: 0, low: 1, high: 1 }];
    let file = write(&PlantFile { plant, trials, aim: Aim::Greatest });
    assert_eq!(expect(&file), "IMPOSSIBLE 1\nHURDLE 0 1\nTRIAL 0 3\nTRIAL 0 NONE\n");
}

#[test]
fn whole_listing() {
    let trials = vec![Trial { line: 1, low: 0, high: 5 }];
    let file = write(&PlantFile { plant: four_lines(), trials, aim: Aim::Greatest });
    assert_eq!(file.len(), 58);
    let text = "GREATEST 5\n0 5\n1 4\n2 4\n3 1\nNEAR 0 2\nFAR 0 2\nTRIAL 1 6\n";
    assert_eq!(expect(&file), text);
    assert_eq!(check::check(&file, text.as_bytes()), Ok(()));
}

#[test]
fn wrong_texts_are_found() {
    let file = write(&PlantFile { plant: four_lines(), trials: Vec::new(), aim: Aim::Greatest });
    let good = expect(&file);
    for place in 0..good.len() {
        let mut bad = good.clone().into_bytes();
        bad[place] ^= 1;
        assert!(check::check(&file, &bad).is_err(), "byte {place}");
        assert!(check::check(&file, &good.as_bytes()[..place]).is_err(), "cut at {place}");
    }
    assert!(check::check(&file, (good.clone() + "\n").as_bytes()).is_err());
    assert!(check::check(&file, good.replace("0 5", "0 05").as_bytes()).is_err());
    assert!(check::check(&file, b"IMPOSSIBLE 1\nHURDLE 0 1\n").is_err());
    assert!(check::check(&file, b"DECLINED 4\n").is_err());
}

fn declined(bytes: &[u8]) -> Option<Decline> {
    read(bytes).err()
}

fn line(from: u8, to: u8, low: u32, high: u32) -> Vec<u8> {
    let mut bytes = vec![b'L', from, to];
    bytes.extend(low.to_be_bytes());
    bytes.extend(high.to_be_bytes());
    bytes
}

fn trial(line: u16, low: u32, high: u32) -> Vec<u8> {
    let mut bytes = vec![b'T'];
    bytes.extend(line.to_be_bytes());
    bytes.extend(low.to_be_bytes());
    bytes.extend(high.to_be_bytes());
    bytes
}

fn file(junctions: u8, commands: &[Vec<u8>]) -> Vec<u8> {
    let mut bytes = vec![b'N', junctions];
    bytes.extend(commands.concat());
    bytes.push(b'G');
    bytes
}

#[test]
fn faults_of_form() {
    assert_eq!(declined(b""), Some(Decline::EndsEarly));
    assert_eq!(declined(b"N"), Some(Decline::EndsEarly));
    assert_eq!(declined(b"N\x02"), Some(Decline::EndsEarly));
    assert_eq!(declined(b"G"), Some(Decline::NoCommand));
    assert_eq!(declined(b"N\x02N"), Some(Decline::NoCommand));
    assert_eq!(declined(b"N\x02x"), Some(Decline::NoCommand));
    assert_eq!(declined(b"N\x02GG"), Some(Decline::BytesAfterAim));
    assert_eq!(declined(b"N\x02MN"), Some(Decline::BytesAfterAim));
    assert_eq!(declined(b"N\x02G"), None);
    // The form comes before the content.
    assert_eq!(declined(b"N\x00Gx"), Some(Decline::BytesAfterAim));
    assert_eq!(declined(b"N\x01L"), Some(Decline::EndsEarly));
}

#[test]
fn trial_count_is_met_at_its_byte() {
    let mut bytes = file(2, &vec![trial(9, 1, 0); 64]);
    assert_eq!(declined(&bytes), Some(Decline::NoSuchLine));
    bytes.pop();
    bytes.push(b'T');
    assert_eq!(declined(&bytes), Some(Decline::TrialCount));
    *bytes.last_mut().expect("a byte") = b'x';
    assert_eq!(declined(&bytes), Some(Decline::NoCommand));
}

#[test]
fn faults_of_content() {
    for &(junctions, decline) in &[
        (0, Some(Decline::JunctionCount)),
        (1, Some(Decline::JunctionCount)),
        (2, None),
        (250, None),
        (251, Some(Decline::JunctionCount)),
        (255, Some(Decline::JunctionCount)),
    ] {
        assert_eq!(declined(&file(junctions, &[])), decline);
    }
    let plain = line(0, 1, 0, 5);
    assert_eq!(declined(&file(2, &vec![plain.clone(); 1_000])), None);
    assert_eq!(declined(&file(2, &vec![plain.clone(); 1_001])), Some(Decline::LineCount));
    assert_eq!(declined(&file(1, &vec![plain.clone(); 1_001])), Some(Decline::JunctionCount));
    assert_eq!(declined(&file(3, &[line(0, 3, 0, 1)])), Some(Decline::BadEnd));
    assert_eq!(declined(&file(3, &[line(2, 2, 9, 1)])), Some(Decline::BadEnd));
    assert_eq!(declined(&file(3, &[line(0, 0, 0, 1)])), Some(Decline::BadEnd));
    assert_eq!(declined(&file(3, &[line(2, 0, 9, 1)])), Some(Decline::WrongWay));
    assert_eq!(declined(&file(3, &[line(1, 2, 0, 1)])), Some(Decline::WrongWay));
    assert_eq!(declined(&file(3, &[line(0, 1, 2, 1)])), Some(Decline::Limits));
    assert_eq!(declined(&file(3, &[line(0, 1, 0, 1_000_000)])), None);
    assert_eq!(declined(&file(3, &[line(0, 1, 0, 1_000_001)])), Some(Decline::Limits));
    // Line by line, not test by test.
    assert_eq!(declined(&file(3, &[line(0, 1, 2, 1), line(0, 9, 0, 1)])), Some(Decline::Limits));
    // The list before the trials, the trials in turn.
    assert_eq!(declined(&file(3, &[trial(7, 0, 1), line(0, 1, 2, 1)])), Some(Decline::Limits));
    assert_eq!(declined(&file(3, &[trial(0, 0, 1), plain.clone()])), None);
    assert_eq!(declined(&file(3, &[trial(1, 2, 1), plain.clone()])), Some(Decline::NoSuchLine));
    let turn = [plain, trial(0, 2, 1), trial(1, 0, 1)];
    assert_eq!(declined(&file(3, &turn)), Some(Decline::Limits));
}

#[test]
fn seeds_agree() {
    for seed in 0..400 {
        let (file, foreseen) = generate::file(seed);
        agree(&file, foreseen).unwrap_or_else(|difference| panic!("seed {}: {}", seed, difference));
    }
}

#[test]
fn written_files_are_read_back() {
    let trials = vec![Trial { line: 2, low: 0, high: 1_000_000 }];
    let file = PlantFile { plant: four_lines(), trials, aim: Aim::Least };
    assert_eq!(read(&write(&file)), Ok(file.clone()));
    assert_eq!(agree(&write(&file), Foreseen::Accepted), Ok(()));
}
