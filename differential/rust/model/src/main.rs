//! Answers cases by the model. With the name of a mutant, by that mutant;
//! with `--mutants`, lists their names.

use model::{mutants, Model};

fn main() -> std::io::Result<()> {
    let name = std::env::args().nth(1);
    if name.as_deref() == Some("--mutants") {
        for mutant in mutants() {
            println!("{}: {}", mutant.name, mutant.what);
        }
        return Ok(());
    }
    let model = match name {
        None => Model::default(),
        Some(name) => match mutants().into_iter().find(|m| m.name == name) {
            Some(mutant) => Model::twisted(mutant.twist),
            None => {
                eprintln!("no mutant of that name: {name}");
                std::process::exit(2);
            }
        },
    };
    lines::drive(|case| model.answer(case))
}
