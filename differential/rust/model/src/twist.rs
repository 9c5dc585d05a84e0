//! Mutants: how a model is twisted, and the list of all of them.

use crate::{order, Check, Kind, Slip, SLIPS};
use lines::{Call, Number, Spec};

/// What is done to one check.
#[derive(Clone, Copy, Debug, PartialEq, Eq)]
pub enum Change {
    /// Exchanged with the check after it.
    Moved,
    Dropped,
    /// a and b change places.
    Exchanged,
    /// 5 only where a is greater.
    OnlyMore,
    /// 5 only where a is less.
    OnlyFewer,
}

#[derive(Clone, Copy, Default)]
pub struct Twist {
    pub(crate) slip: Option<Slip>,
    /// Of this kind's order, at this place.
    change: Option<(Kind, usize, Change)>,
}

impl Twist {
    pub(crate) fn is_some(&self) -> bool {
        self.slip.is_some() || self.change.is_some()
    }

    /// Whether calls of this kind can be answered otherwise: a change in the
    /// order of one kind leaves the others as they are.
    pub(crate) fn concerns(&self, kind: Kind) -> bool {
        self.change.is_none_or(|(of, _, _)| of == kind)
    }

    pub(crate) fn order(&self, kind: Kind) -> Vec<Check> {
        let mut checks = order(kind).to_vec();
        match self.change {
            Some((of, place, Change::Moved)) if of == kind => checks.swap(place, place + 1),
            Some((of, place, Change::Dropped)) if of == kind => {
                checks.remove(place);
            }
            _ => {}
        }
        checks
    }

    /// What becomes of a refusal by `check`.
    pub(crate) fn answer_of(&self, check: Check, kind: Kind, number: Number) -> Option<Number> {
        let Some((of, place, change)) = self.change else {
            return Some(number);
        };
        if of != kind || order(kind)[place] != check {
            return Some(number);
        }
        match change {
            Change::Exchanged => Some(Number::new(number.n, number.b, number.a)),
            Change::OnlyMore => (number.a > number.b).then_some(number),
            Change::OnlyFewer => (number.a < number.b).then_some(number),
            Change::Moved | Change::Dropped => Some(number),
        }
    }
}

pub struct Mutant {
    pub name: String,
    pub what: String,
    pub twist: Twist,
    /// Why no case can see it, if none can.
    pub unseen: Option<&'static str>,
}

/// Every mutant: the slips, and each check moved, dropped or weakened.
pub fn mutants() -> Vec<Mutant> {
    let mut all: Vec<Mutant> = SLIPS
        .iter()
        .map(|&(slip, name, what, unseen)| Mutant {
            name: name.to_string(),
            what: what.to_string(),
            twist: Twist {
                slip: Some(slip),
                change: None,
            },
            unseen,
        })
        .collect();
    for kind in Kind::ALL {
        for place in 0..order(kind).len() {
            all.extend(mutants_of(kind, place));
        }
    }
    all
}

/// What is done to the check at this place of the order: the change, a word
/// for it, what it does, and why it cannot be seen.
type Row = (Change, &'static str, String, Option<&'static str>);

fn mutants_of(kind: Kind, place: usize) -> Vec<Mutant> {
    let name = order(kind)[place].name(kind);
    let mutant = |(change, word, what, unseen): Row| Mutant {
        name: format!("{}-{word}-{name}", kind.name()),
        what,
        twist: Twist {
            slip: None,
            change: Some((kind, place, change)),
        },
        unseen,
    };
    rows(kind, place).into_iter().map(mutant).collect()
}

fn rows(kind: Kind, place: usize) -> Vec<Row> {
    let checks = order(kind);
    let check = checks[place];
    let name = check.name(kind);
    let mut rows: Vec<Row> = Vec::new();
    if let Some(next) = checks.get(place + 1) {
        let what = format!("{name} is tested after {}", next.name(kind));
        let alike = check.number() == 3 && next.number() == 3;
        let unseen = alike.then_some("both give 3, 0, 0");
        rows.push((Change::Moved, "moved", what, unseen));
    }
    let what = format!("{name} is not tested");
    rows.push((Change::Dropped, "dropped", what, dropped_unseen(check)));
    if matches!(check.number(), 2 | 5 | 6 | 7 | 9) {
        let what = format!("{name} gives a and b the other way round");
        let unseen = exchanged_unseen(check, kind);
        rows.push((Change::Exchanged, "exchanged", what, unseen));
    }
    if check.number() == 5 && check != Check::WindowCountInRank {
        let what = |word| format!("{name} refuses only where there are {word}");
        rows.push((Change::OnlyMore, "only-more", what("more"), None));
        rows.push((Change::OnlyFewer, "only-fewer", what("fewer"), None));
    }
    rows
}

fn dropped_unseen(check: Check) -> Option<&'static str> {
    (check == Check::WindowProduct).then_some(
        "a window is at most its extent, so no step of its product exceeds the destination's",
    )
}

fn exchanged_unseen(check: Check, kind: Kind) -> Option<&'static str> {
    let same = check == Check::Shape && kind != Kind::Gather;
    same.then_some("a and b are both the update rank")
}

/// The number that a check refuses by.
impl Check {
    pub fn number(self) -> u64 {
        match self {
            Check::Lengths => 1,
            Check::Ranks => 2,
            Check::Nested => 4,
            Check::SliceSizes
            | Check::Components
            | Check::WindowCount
            | Check::WindowCountInRank
            | Check::BatchRank => 5,
            Check::CollapsedAxes
            | Check::InsertedAxes
            | Check::Map
            | Check::VectorAxis
            | Check::WindowSizes
            | Check::CollapsedWindows
            | Check::WindowAxes => 6,
            Check::Shape | Check::OperandExtents => 7,
            Check::CallLayouts => 8,
            Check::OperandBounds | Check::Bounds(_) => 9,
            _ => 3,
        }
    }
}

impl crate::Model {
    /// The call with its spec's lists cut short, for the slips that do that.
    pub(crate) fn with_shortened_lists(&self, call: &Call) -> Option<Call> {
        let most = match self.twist.slip? {
            Slip::ListsToEight => 8,
            Slip::ListsToSixteen => 16,
            _ => return None,
        };
        let mut call = call.clone();
        let lists = match &mut call.job.spec {
            Spec::Gather(s) => vec![
                &mut s.offset_dims,
                &mut s.collapsed_slice_dims,
                &mut s.start_index_map,
                &mut s.slice_sizes,
            ],
            Spec::Scatter(s) => vec![
                &mut s.update_window_dims,
                &mut s.inserted_window_dims,
                &mut s.scatter_dims_to_operand_dims,
            ],
        };
        for list in lists {
            list.truncate(most);
        }
        Some(call)
    }
}
