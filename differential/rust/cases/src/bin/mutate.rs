//! The mutation run: `mutate CASES ORACLE`. Every mutant of the model must
//! be told from the oracle by some case, but for those that no case can see.
//! How many windows slid the oracle does not tell: that number is the one of
//! the model that is not twisted.

use cases::answers::{first_seen, load, telling};
use model::{mutants, Model, Mutant};
use std::path::Path;
use std::process::ExitCode;

fn main() -> ExitCode {
    let files: Vec<String> = std::env::args().skip(1).collect();
    let [cases, oracle] = &files[..] else {
        eprintln!("usage: mutate CASES ORACLE");
        return ExitCode::from(2);
    };
    let cases = match load(Path::new(cases), &[Path::new(oracle)]) {
        Ok(cases) => cases,
        Err(error) => {
            eprintln!("{error}");
            return ExitCode::from(1);
        }
    };
    std::panic::set_hook(Box::new(|_| {}));
    let telling = telling(&cases);
    let (mut seen, mut unseen, mut wrong) = (0, 0, 0);
    for mutant in mutants() {
        let by = first_seen(&Model::twisted(mutant.twist), &telling);
        match (by, mutant.unseen) {
            (Some(_), None) => seen += 1,
            (None, Some(_)) => unseen += 1,
            _ => wrong += 1,
        }
        println!(
            "{}",
            described(&mutant, by.map(|answered| &answered.id[..]))
        );
    }
    println!("mutants seen: {seen}");
    println!("mutants that no case can see: {unseen}");
    println!("mutants not as listed: {wrong}");
    ExitCode::from(u8::from(wrong > 0))
}

fn described(mutant: &Mutant, by: Option<&str>) -> String {
    let Mutant { name, what, .. } = mutant;
    match (by, mutant.unseen) {
        (Some(id), None) => format!("seen by {id}: {name} ({what})"),
        (None, Some(why)) => format!("cannot be seen: {name} ({what}): {why}"),
        (Some(id), Some(_)) => format!("SEEN by {id}, though listed as unseen: {name} ({what})"),
        (None, None) => format!("NOT SEEN: {name} ({what})"),
    }
}
