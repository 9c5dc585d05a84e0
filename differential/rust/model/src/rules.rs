//! The rules by which an update is put on a cell, in document 02's words.
//! Elements are 64-bit words: an i32's bits, or an f64's.

use crate::{Model, Slip};
use lines::{Call, Element, Rule};
use std::cmp::Ordering;

impl Model {
    /// What a cell becomes of what it holds and an update.
    pub(crate) fn combined(&self, call: &Call, held: u64, update: u64) -> u64 {
        let element = call.job.element;
        let sum = self.sum(held, update, element);
        let rule = self.rule(call);
        let less = |a, b| self.less(rule, a, b, element);
        let word = match rule {
            Rule::Add => sum,
            Rule::Lowest if less(update, held) => update,
            Rule::Highest if less(held, update) => update,
            Rule::Lowest | Rule::Highest => held,
            Rule::Replace => update,
            Rule::Ceiling(limit) if less(limit, self.limited(held, update, sum)) => limit,
            Rule::Ceiling(_) => sum,
        };
        self.slip_kept(rule, word, element)
    }

    /// i32 sums wrap; f64 sums are rounded once.
    pub(crate) fn sum(&self, held: u64, update: u64, element: Element) -> u64 {
        match element {
            Element::I32 => {
                let (held, update) = (whole(held), whole(update));
                let sum = match self.slips(Slip::SumSaturates) {
                    true => held.saturating_add(update),
                    false => held.wrapping_add(update),
                };
                u64::from(sum as u32)
            }
            Element::F64 => {
                let (held, update) = (f64::from_bits(held), f64::from_bits(update));
                let sum = match self.slips(Slip::SumInSingle) {
                    true => f64::from((held as f32) + (update as f32)),
                    false => held + update,
                };
                sum.to_bits()
            }
        }
    }

    /// Whether `a` is less than `b`. A comparison with NaN is false.
    fn less(&self, rule: Rule, a: u64, b: u64, element: Element) -> bool {
        match self.compared(a, b, element) {
            Some(Ordering::Less) => !self.turned_round(rule),
            Some(Ordering::Equal) => self.takes_equal(rule),
            Some(Ordering::Greater) => self.turned_round(rule),
            None => self.takes_nan(rule, a, b),
        }
    }

    /// None where either is NaN.
    fn compared(&self, a: u64, b: u64, element: Element) -> Option<Ordering> {
        let (x, y) = (f64::from_bits(a), f64::from_bits(b));
        match (element, self.twist.slip) {
            (Element::I32, Some(Slip::ComparesUnsigned)) => a.partial_cmp(&b),
            (Element::I32, Some(Slip::ComparesByDifference)) => {
                whole(a).wrapping_sub(whole(b)).partial_cmp(&0)
            }
            (Element::I32, _) => whole(a).partial_cmp(&whole(b)),
            (Element::F64, Some(Slip::ComparesInTotalOrder)) => Some(x.total_cmp(&y)),
            (Element::F64, Some(Slip::ComparesInSingle)) => (x as f32).partial_cmp(&(y as f32)),
            (Element::F64, _) => x.partial_cmp(&y),
        }
    }
}

fn whole(word: u64) -> i32 {
    word as u32 as i32
}

/// Slips in the rules.
impl Model {
    /// The rule that the call is done by: its own, but for a slip.
    fn rule(&self, call: &Call) -> Rule {
        match (self.twist.slip, call.rule) {
            (Some(Slip::ScatterOverwrites), _) => Rule::Replace,
            (Some(Slip::RuleIgnored), _) => Rule::Add,
            (Some(Slip::LowestForHighest), Rule::Highest) => Rule::Lowest,
            (Some(Slip::HighestForLowest), Rule::Lowest) => Rule::Highest,
            (Some(Slip::LimitIgnored | Slip::CeilingAtTheEnd), Rule::Ceiling(_)) => Rule::Add,
            (_, rule) => rule,
        }
    }

    /// What Ceiling's limit is compared with: the sum.
    fn limited(&self, held: u64, update: u64, sum: u64) -> u64 {
        match self.twist.slip {
            Some(Slip::CeilingOfUpdate) => update,
            Some(Slip::CeilingOfOldValue) => held,
            _ => sum,
        }
    }

    fn turned_round(&self, rule: Rule) -> bool {
        self.slips(Slip::CeilingTurnedRound) && matches!(rule, Rule::Ceiling(_))
    }

    fn takes_equal(&self, rule: Rule) -> bool {
        matches!(
            (self.twist.slip, rule),
            (Some(Slip::LowestTakesEqual), Rule::Lowest)
                | (Some(Slip::HighestTakesEqual), Rule::Highest)
                | (Some(Slip::CeilingTakesEqual), Rule::Ceiling(_))
        )
    }

    /// For fmin and fmax: Lowest holds `b` where it is asked whether `a` is
    /// less, Highest holds `a`.
    fn takes_nan(&self, rule: Rule, a: u64, b: u64) -> bool {
        match (self.twist.slip, rule) {
            (Some(Slip::LowestTakesNan), Rule::Lowest)
            | (Some(Slip::HighestTakesNan), Rule::Highest)
            | (Some(Slip::CeilingTakesNan), Rule::Ceiling(_)) => true,
            (Some(Slip::LowestIsFmin), Rule::Lowest) => !f64::from_bits(a).is_nan(),
            (Some(Slip::HighestIsFmax), Rule::Highest) => !f64::from_bits(b).is_nan(),
            _ => false,
        }
    }

    /// Slips in the bits that Lowest, Highest and Replace leave.
    fn slip_kept(&self, rule: Rule, word: u64, element: Element) -> u64 {
        let float = f64::from_bits(word);
        match (element, self.twist.slip, rule) {
            (Element::F64, Some(Slip::ReplaceAddsToZero), Rule::Replace) => (0.0 + float).to_bits(),
            (_, Some(Slip::KeptNanQuieted), Rule::Add | Rule::Ceiling(_)) => word,
            (Element::F64, Some(Slip::KeptNanQuieted), _) if float.is_nan() => word | 1 << 51,
            _ => word,
        }
    }

    pub(crate) fn sums_first(&self, call: &Call) -> bool {
        self.slips(Slip::ScatterSumsFirst) && call.rule == Rule::Add
    }

    pub(crate) fn compares_with_old(&self, call: &Call) -> bool {
        self.slips(Slip::ComparesOldValue) && matches!(call.rule, Rule::Lowest | Rule::Highest)
    }

    pub(crate) fn keeps_first(&self, call: &Call) -> bool {
        self.slips(Slip::ReplaceKeepsFirst) && call.rule == Rule::Replace
    }

    /// Slips that hold whole cells to Ceiling's limit after the last update.
    pub(crate) fn slip_limit(&self, cells: &mut [u64], landed: &[bool], rule: Rule) {
        let (limit, held_to) = match (rule, self.twist.slip) {
            (Rule::Ceiling(limit), Some(Slip::CeilingAtTheEnd)) => (limit, true),
            (Rule::Ceiling(limit), Some(Slip::CeilingElsewhere)) => (limit, false),
            _ => return,
        };
        for (cell, _) in cells.iter_mut().zip(landed).filter(|(_, &l)| l == held_to) {
            if f64::from_bits(*cell) > f64::from_bits(limit) {
                *cell = limit;
            }
        }
    }
}
