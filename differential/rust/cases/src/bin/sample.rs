//! Chooses cases to be stored: `sample CASES ORACLE DIR` writes
//! DIR/cases.txt and DIR/answers.txt. Every paper's case is kept, a case that
//! sees each mutant, and some for every refusal, answer, rank, element type
//! and place of the vector axis, and for windows that slide in every way.
//! Cases that name a rule or a chart are left out: the program that replays
//! the stored ones knows neither. `sample charts CASES ORACLE DIR` writes
//! those with a chart, fewer of them and by any rule, to DIR/charts.txt and
//! DIR/chart-answers.txt. The answers are the oracle's, with the model's
//! number of windows that slid, which the oracle has not.

use cases::answers::{completed, first_seen, load, telling, Answered};
use lines::{Answer, Call, Spec};
use model::{mutants, Kind, Model};
use std::collections::{BTreeMap, BTreeSet};
use std::path::{Path, PathBuf};
use std::{fs, io};

/// Longer lines than this are left out.
const LONGEST: usize = 330;
const MOST_BYTES: usize = 660_000;
/// Of a feature so many times fewer cases with a chart are wanted.
const FEWER_CHARTS: usize = 5;
/// Of how many windows the starts are looked at.
const MOST_WINDOWS: usize = 64;

fn main() -> io::Result<()> {
    let arguments: Vec<String> = std::env::args().skip(1).collect();
    let words: Vec<&str> = arguments.iter().map(String::as_str).collect();
    let (charts, cases, oracle, dir) = match words[..] {
        ["charts", cases, oracle, dir] => (true, cases, oracle, dir),
        [cases, oracle, dir] => (false, cases, oracle, dir),
        _ => {
            eprintln!("usage: sample [charts] CASES ORACLE DIR");
            std::process::exit(2);
        }
    };
    let mut cases = load(Path::new(cases), &[Path::new(oracle)])?;
    cases.retain(|answered| is_wanted(answered, charts));
    std::panic::set_hook(Box::new(|_| {}));
    let chosen = chosen(&cases);
    let names = match charts {
        true => ["charts.txt", "chart-answers.txt"],
        false => ["cases.txt", "answers.txt"],
    };
    write(
        names.map(|name| Path::new(dir).join(name)),
        cases.iter().filter(|a| chosen.contains(&a.id)),
    )
}

/// Whether a case may be stored, among those with a chart or without.
fn is_wanted(answered: &Answered, charts: bool) -> bool {
    let Some(call) = answered.call() else {
        return false;
    };
    let kind = match charts {
        true => call.operand.is_some(),
        false => call.operand.is_none() && !answered.text.contains(" rule="),
    };
    kind && answered.text.len() <= LONGEST
}

fn write<'a>(files: [PathBuf; 2], chosen: impl Iterator<Item = &'a Answered>) -> io::Result<()> {
    let (mut cases, mut answers) = (String::new(), String::new());
    for answered in chosen {
        cases += &format!("{} {}\n", answered.id, answered.text);
        answers += &format!("{} {}\n", answered.id, stored(answered));
    }
    let [cases_file, answers_file] = files;
    fs::write(cases_file, cases)?;
    fs::write(answers_file, answers)
}

/// The oracle's line, completed where it answers a call.
fn stored(answered: &Answered) -> String {
    match completed(answered, 0) {
        Some((answer, _)) => answer.to_string(),
        None => answered.given[0].clone(),
    }
}

fn chosen(cases: &[Answered]) -> BTreeSet<String> {
    let mut chosen: BTreeSet<String> = cases
        .iter()
        .filter(|answered| is_named(&answered.id))
        .map(|answered| answered.id.clone())
        .collect();
    let telling = telling(cases);
    for mutant in mutants() {
        let by = first_seen(&Model::twisted(mutant.twist), &telling);
        chosen.extend(by.map(|answered| answered.id.clone()));
    }
    let mut bytes: usize = cases
        .iter()
        .filter(|answered| chosen.contains(&answered.id))
        .map(size)
        .sum();
    let mut counts: BTreeMap<String, usize> = BTreeMap::new();
    for answered in cases {
        let Some(call) = answered.call() else {
            continue;
        };
        let mut wanted = chosen.contains(&answered.id);
        for (feature, most) in features(call, &answered.given[0]) {
            let most = match call.operand {
                Some(_) => most.div_ceil(FEWER_CHARTS),
                None => most,
            };
            let count = counts.entry(feature).or_default();
            wanted |= *count < most;
            *count += 1;
        }
        if wanted && bytes + size(answered) <= MOST_BYTES && chosen.insert(answered.id.clone()) {
            bytes += size(answered);
        }
    }
    chosen
}

fn size(answered: &Answered) -> usize {
    2 * answered.id.len() + answered.text.len() + stored(answered).len() + 4
}

/// Generated cases have numbers; the papers' have names.
fn is_named(id: &str) -> bool {
    !id.ends_with(|c: char| c.is_ascii_digit())
}

/// What a case shows, with how many cases are wanted for each.
fn features(call: &Call, given: &str) -> Vec<(String, usize)> {
    let verdict = Model::default().judge(call);
    let kind = Kind::of(call).name();
    let vector = match &call.job.spec {
        Spec::Gather(s) => s.index_vector_dim,
        Spec::Scatter(s) => s.index_vector_dim,
    };
    let element = call.job.element;
    let line = match verdict.refused_by {
        Some(check) => check.name(Kind::of(call)),
        None => "done".to_string(),
    };
    let mut features = vec![(format!("{kind} {element} {line}"), 10)];
    if let Answer::Called(number, ..) = verdict.answer {
        features.push((format!("{kind} {number}"), 1));
    }
    if verdict.refused_by.is_none() {
        features.push((format!("{kind} {element} done"), 60));
        let ranks = call.job.views.iter().map(|view| view.layout.extents.len());
        for (place, rank) in ranks.enumerate() {
            features.push((format!("{kind} {element} view {place} rank {rank}"), 6));
        }
        let rank = call.job.index().layout.extents.len();
        features.push((format!("{kind} vector {vector} of {rank}"), 3));
        let changed = !given.ends_with(&format!("dest {}", call.dest));
        features.push((format!("{kind} {element} changed {changed}"), 40));
        features.extend(slid_features(call, kind));
        features.extend(operand_features(call));
    }
    features
}

/// What a chart that is copied shows: its element and rule, and how its
/// strides stand to the destination's.
fn operand_features(call: &Call) -> Vec<(String, usize)> {
    let Some(operand) = &call.operand else {
        return Vec::new();
    };
    let (own, dest) = (&operand.view.layout, &call.job.dest().layout);
    let signs: BTreeSet<i64> = own.strides.iter().map(|stride| stride.signum()).collect();
    let strides = match own.strides == dest.strides {
        true => "the same".to_string(),
        false => format!("{signs:?}"),
    };
    let axes = dest.extents.iter().filter(|&&extent| extent > 1).count();
    vec![
        (format!("{} {}", call.job.element, call.rule.name()), 20),
        (format!("strides {strides}, {axes} axes"), 15),
    ]
}

/// What a call that is done shows of windows that slide: how many of them do,
/// where their starts lie, which component moves alone, and whether windows
/// share a start.
fn slid_features(call: &Call, kind: &str) -> Vec<(String, usize)> {
    let starts: Vec<Vec<(i64, u64)>> = model::starts(call).take(MOST_WINDOWS).collect();
    let cells = match call.job.spec {
        Spec::Gather(_) => !call.job.dest().layout.extents.contains(&0),
        Spec::Scatter(_) => !call.job.source().layout.extents.contains(&0),
    };
    let slid = starts
        .iter()
        .filter(|start| moved(start).any(|moved| moved));
    let which = match slid.count() {
        0 => "none",
        n if n == starts.len() => "all",
        _ => "some",
    };
    let (element, most) = (call.job.element, if cells { 30 } else { 10 });
    let mut features = vec![(format!("{kind} {element} cells {cells} slid {which}"), most)];
    let index = &call.job.index().layout;
    let mut axes = index.extents.iter().zip(&index.strides);
    if axes.any(|(&extent, &stride)| extent > 1 && stride == 0) {
        features.push((format!("{kind} cells {cells} shared, slid {which}"), 8));
    }
    // Once each, however many windows show it.
    let of_windows = starts
        .iter()
        .flat_map(|start| start_features(start, kind, cells));
    features.extend(of_windows.collect::<BTreeMap<_, _>>());
    features
}

/// Of one window: where its start lies on each axis, and which component of
/// several moves alone.
fn start_features(start: &[(i64, u64)], kind: &str, cells: bool) -> Vec<(String, usize)> {
    let lies = |&(start, last): &(i64, u64)| {
        let lies = match i128::from(start) - i128::from(last) {
            _ if start < -1 => "far below",
            _ if start == -1 => "below",
            0 => "at the last",
            1 => "past",
            2.. => "far past",
            _ => "inside",
        };
        (
            format!("{kind} cells {cells} start {lies}, room {}", last > 0),
            4,
        )
    };
    let mut features: Vec<_> = start.iter().map(lies).collect();
    let alone = moved(start).filter(|&moved| moved).count() == 1;
    if let (true, Some(place)) = (alone, moved(start).position(|moved| moved)) {
        features.push((format!("{kind} moves {place} of {} alone", start.len()), 3));
    }
    features
}

/// Which components the clamp moves.
fn moved(start: &[(i64, u64)]) -> impl Iterator<Item = bool> + use<'_> {
    let is_moved = |&(start, last): &(i64, u64)| u64::try_from(start).map_or(true, |s| s > last);
    start.iter().map(is_moved)
}
