//! Contents of slices: starts and elements.

use crate::random::Random;
use lines::{Data, Element};

/// Starts that no grid holds, or that only 64 bits can tell from small ones.
const FAR_STARTS: [i64; 10] = [
    i64::MIN,
    i64::MIN + 1,
    i64::MAX,
    i64::MAX - 1,
    1 << 32,
    (1 << 32) + 1,
    -(1 << 32),
    1 << 31,
    -(1 << 31) - 1,
    1 << 62,
];

pub fn starts(random: &mut Random, len: usize, reach: i64) -> Vec<i64> {
    let start = |_| match random.below(20) {
        0 => random.pick(&FAR_STARTS),
        1 => random.next() as i64,
        2..=6 => random.between(-3, reach + 3),
        _ => random.between(0, reach),
    };
    (0..len).map(start).collect()
}

const FAR_I32: [i32; 6] = [
    i32::MAX,
    i32::MIN,
    i32::MAX - 1,
    i32::MIN + 1,
    1 << 30,
    -(1 << 30),
];

/// NaNs of both kinds and signs, infinities, zeros, the ends of the range.
const ODD_F64: [u64; 18] = [
    0x7ff8_0000_0000_0000,
    0xfff8_0000_0000_0000,
    0x7ff8_0000_0000_0001,
    0x7ff0_0000_0000_0001,
    0xfff0_0000_dead_beef,
    0x7fff_ffff_ffff_ffff,
    0xffff_ffff_ffff_ffff,
    0x7ff0_0000_0000_0000,
    0xfff0_0000_0000_0000,
    0x8000_0000_0000_0000,
    0x0000_0000_0000_0000,
    0x0000_0000_0000_0001,
    0x800f_ffff_ffff_ffff,
    0x0010_0000_0000_0000,
    0x7fef_ffff_ffff_ffff,
    0xffef_ffff_ffff_ffff,
    0x3ff0_0000_0000_0000,
    0x4340_0000_0000_0000,
];

/// Sums of these depend on their order.
const UNEVEN_F64: [f64; 10] = [
    1.0,
    -1.0,
    0.1,
    0.3,
    -0.7,
    1e16,
    -1e16,
    3.0,
    1e8,
    9007199254740993.0,
];

pub fn elements(random: &mut Random, element: Element, len: usize) -> Data {
    let style = random.below(3);
    match element {
        Element::I32 => Data::I32((0..len).map(|_| small_or_far(random, style)).collect()),
        Element::F64 => Data::F64((0..len).map(|_| float(random, style)).collect()),
    }
}

fn small_or_far(random: &mut Random, style: u64) -> i32 {
    match style {
        0 => random.between(-99, 99) as i32,
        1 if random.percent(50) => random.pick(&FAR_I32),
        1 => random.between(-9, 9) as i32,
        _ => random.next() as i32,
    }
}

/// An f64 that is odd in some way.
pub fn odd(random: &mut Random) -> u64 {
    random.pick(&ODD_F64)
}

fn float(random: &mut Random, style: u64) -> u64 {
    match style {
        0 => (random.between(-999, 999) as f64).to_bits(),
        1 if random.percent(30) => odd(random),
        _ => random.pick(&UNEVEN_F64).to_bits(),
    }
}
