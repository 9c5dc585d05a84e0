//! Cases: the generator, the enumeration of small ones, the comparison of
//! their answers.

pub mod answers;
mod contents;
mod edges;
mod faults;
pub mod jobs;
pub mod large;
mod operands;
mod random;
mod rules;
pub mod small;
mod small_operands;
mod starts;
mod valid;

pub use faults::fault_names;
pub use operands::WithOperands;
pub use rules::Ruled;

use faults::Faults;
use lines::Call;
use random::Random;

/// The random cases of a seed, in order: most are valid, the others carry one
/// fault or two, or have layouts at the edges of u64 and i64. Their scatters
/// are update-only and add; `WithOperands` and `Ruled` give them more.
pub struct Generator {
    random: Random,
    faults: Faults,
}

impl Generator {
    pub fn new(seed: u64) -> Self {
        Generator {
            random: Random::new(seed),
            faults: Faults::new(seed),
        }
    }
}

impl Iterator for Generator {
    type Item = Call;

    fn next(&mut self) -> Option<Call> {
        let random = &mut self.random;
        Some(match random.below(100) {
            0..=56 => valid::call(random),
            57..=66 => self.faults.one(random),
            67..=90 => self.faults.two(random),
            _ => edges::call(random),
        })
    }
}
