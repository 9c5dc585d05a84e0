//! Rules for scatters, with contents that tell the rules apart: values that
//! are equal, that compare by no order, or that lie next to each other, and
//! many updates on one cell.

use crate::contents::{elements, odd};
use crate::random::Random;
use lines::{Call, Data, Element, Rule, Spec};

/// Calls of which most scatters have been given a rule other than Add.
pub struct Ruled<C> {
    calls: C,
    random: Random,
}

impl<C> Ruled<C> {
    pub fn new(calls: C, seed: u64) -> Self {
        Ruled {
            calls,
            random: Random::new(seed.rotate_left(32) ^ 0x72_75_6c_65),
        }
    }
}

impl<C: Iterator<Item = Call>> Iterator for Ruled<C> {
    type Item = Call;

    fn next(&mut self) -> Option<Call> {
        let mut call = self.calls.next()?;
        let scatter = matches!(call.job.spec, Spec::Scatter(_));
        if scatter && self.random.percent(70) {
            give_rule(&mut self.random, &mut call);
        }
        Some(call)
    }
}

fn give_rule(random: &mut Random, call: &mut Call) {
    let style = random.below(6);
    call.rule = match random.below(5) {
        0 => Rule::Lowest,
        1 => Rule::Highest,
        2 => Rule::Replace,
        _ if call.job.element == Element::F64 => Rule::Ceiling(float(random, style)),
        _ => random.pick(&[Rule::Lowest, Rule::Highest]),
    };
    call.source = contents(random, &call.source, style);
    call.dest = contents(random, &call.dest, style);
    if let Some(operand) = &mut call.operand {
        operand.data = contents(random, &operand.data, style);
    }
    if !call.index.is_empty() && random.percent(40) {
        // All windows land on the same cells.
        let start = random.pick(&call.index);
        call.index.fill(start);
    }
}

/// As many elements as there are.
fn contents(random: &mut Random, data: &Data, style: u64) -> Data {
    match data {
        Data::I32(cells) if style < 2 => {
            Data::I32(cells.iter().map(|_| few(random, style)).collect())
        }
        Data::I32(cells) => elements(random, Element::I32, cells.len()),
        Data::F64(cells) => Data::F64(cells.iter().map(|_| float(random, style)).collect()),
    }
}

/// A few numbers only, small or at the ends of the range.
fn few(random: &mut Random, style: u64) -> i32 {
    match style {
        0 => random.between(-2, 2) as i32,
        _ => random.pick(&[i32::MIN, i32::MIN + 1, -1, 0, 1, i32::MAX - 1, i32::MAX]),
    }
}

/// Both zeros among a few numbers and NaNs; small numbers; odd ones; numbers
/// next to each other; subnormals; any bits.
fn float(random: &mut Random, style: u64) -> u64 {
    match style {
        0 if random.percent(70) => random.pick(&[0, 1 << 63]),
        0 if random.percent(50) => nan(random),
        1 if random.percent(5) => nan(random),
        2 if random.percent(60) => odd(random),
        3 => 1f64.to_bits().wrapping_add_signed(random.between(-2, 2)),
        4 => with_sign(random, 52),
        5 if random.percent(80) => random.next(),
        _ => (random.between(-9, 9) as f64 / 2.0).to_bits(),
    }
}

/// A NaN of either sign and kind, with any payload.
fn nan(random: &mut Random) -> u64 {
    let quiet = random.below(2) << 51;
    0x7ff << 52 | quiet | with_sign(random, 51) | 1
}

/// A sign, and a number of at most so many bits.
fn with_sign(random: &mut Random, most: u32) -> u64 {
    let bits = random.size(1, most as usize);
    random.below(2) << 63 | random.below(1 << bits)
}
