//! Document 01 in exact integers: the refusals in their order, the meaning of
//! gather and scatter, the stored job; and of document 02 the rules of a
//! scatter, the number of windows that slid and the operand that a scatter
//! copies first. It knows nothing of the Rust original.
//!
//! A model can be twisted, for the mutation run: a check moved or dropped, or
//! a slip made somewhere.

mod arithmetic;
mod checks;
mod meaning;
mod operand;
mod rules;
mod shape;
mod slid;
mod slips;
mod stored;
mod twist;

pub use checks::{order, Check, Kind};
pub use slid::{starts, windows};
pub use slips::{Slip, SLIPS};
pub use stored::{read, write};
pub use twist::{mutants, Mutant, Twist};

use lines::{Answer, Call, Case, Number, Spec, MOST_UPDATES};

/// A twisted model gives up on longer runs than this.
const MOST_WHEN_TWISTED: u64 = 1 << 14;

/// What the model says of a call.
pub struct Verdict {
    pub answer: Answer,
    /// The check that refused.
    pub refused_by: Option<Check>,
    /// The elements of the destination slice that an add gave.
    pub added: Vec<bool>,
}

#[derive(Clone, Copy, Default)]
pub struct Model {
    twist: Twist,
}

impl Model {
    pub fn twisted(twist: Twist) -> Self {
        Model { twist }
    }

    fn slips(&self, slip: Slip) -> bool {
        self.twist.slip == Some(slip)
    }

    /// Whether its twist can show in such a call.
    pub fn may_differ(&self, call: &Call) -> bool {
        self.twist.concerns(Kind::of(call))
    }

    pub fn answer(&self, case: &Case) -> Answer {
        match case {
            Case::Call(call) => self.judge(call).answer,
            Case::Read(bytes) => read(bytes),
            Case::Write { job, room } => write(job, *room),
        }
    }

    pub fn judge(&self, call: &Call) -> Verdict {
        let shortened = self.with_shortened_lists(call);
        let call = shortened.as_ref().unwrap_or(call);
        for check in self.twist.order(Kind::of(call)) {
            if let Some(number) = self.refusal(check, call) {
                return self.refused(call, number, Some(check));
            }
        }
        if let Some(number) = self.slip_before_run(call) {
            return self.refused(call, number, None);
        }
        if self.runs_too_long(call) {
            return Verdict {
                answer: Answer::TooMany,
                refused_by: None,
                added: Vec::new(),
            };
        }
        let (dest, added) = self.run(call);
        Verdict {
            answer: Answer::Called(Number::DONE, dest, Some(self.slid(call))),
            refused_by: None,
            added,
        }
    }

    /// True for an accepted call with more cells than a run can do. A gather,
    /// or an operand's copy, has no more than its destination slice has
    /// elements.
    pub fn runs_too_long(&self, call: &Call) -> bool {
        let (most, cells) = match (&call.job.spec, self.twist.is_some()) {
            (Spec::Gather(_), false) => return false,
            (Spec::Gather(_), true) => {
                let extents = &call.job.dest().layout.extents;
                (MOST_WHEN_TWISTED, arithmetic::cells(extents))
            }
            (Spec::Scatter(spec), false) => (MOST_UPDATES, shape::updates(&call.job, spec)),
            (Spec::Scatter(spec), true) => (
                MOST_WHEN_TWISTED,
                shape::updates(&call.job, spec).max(operand::cells(call)),
            ),
        };
        cells > u128::from(most)
    }

    /// A refusal leaves every lent element as it was.
    fn refused(&self, call: &Call, number: Number, refused_by: Option<Check>) -> Verdict {
        let writes = self.slips(Slip::RefusedCallWrites) && matches!(number.n, 8 | 9);
        let dest = match writes && !self.runs_too_long(call) {
            true => self.run(call).0,
            false => call.dest.clone(),
        };
        Verdict {
            answer: Answer::Called(number, dest, None),
            refused_by,
            added: vec![false; call.dest.len()],
        }
    }
}
