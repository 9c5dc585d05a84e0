//! Stored jobs: to be written into buffers of some length, and to be read,
//! whole, cut short, changed or with bytes left over. Of some jobs every
//! damaged copy is read: cut at each length, each byte changed, bytes added,
//! the count wrong. The Rust has no stored job, so that only the port and the
//! model are compared on these.

use crate::random::Random;
use crate::Generator;
use lines::{Answer, Case, Job};
use model::write;

/// One job in so many is damaged in every way.
const DAMAGED_IN_FULL: u64 = 2000;

pub struct Jobs {
    random: Random,
    calls: Generator,
    damaged: Vec<Vec<u8>>,
}

impl Jobs {
    pub fn new(seed: u64) -> Self {
        Jobs {
            random: Random::new(!seed),
            calls: Generator::new(seed),
            damaged: Vec::new(),
        }
    }
}

impl Iterator for Jobs {
    type Item = Case;

    fn next(&mut self) -> Option<Case> {
        if let Some(bytes) = self.damaged.pop() {
            return Some(Case::Read(bytes));
        }
        let random = &mut self.random;
        let job = self.calls.next()?.job;
        Some(match written(&job) {
            Some(bytes) if random.below(DAMAGED_IN_FULL) == 0 => {
                self.damaged = damaged(&bytes);
                Case::Read(bytes)
            }
            Some(bytes) if random.percent(70) => Case::Read(changed(random, bytes)),
            bytes => {
                let need = bytes.map_or(0, |bytes| bytes.len() as u64);
                let rooms = [need, need, need + 7, need.saturating_sub(1), 0, 1 << 40];
                Case::Write {
                    room: random.pick(&rooms),
                    job: Box::new(job),
                }
            }
        })
    }
}

fn written(job: &Job) -> Option<Vec<u8>> {
    match write(job, u64::MAX) {
        Answer::Written(_, bytes) => bytes,
        _ => None,
    }
}

/// The bytes with a fault, or without. The count is mostly put right again,
/// so that the fault is met at its own place.
fn changed(random: &mut Random, mut bytes: Vec<u8>) -> Vec<u8> {
    let len = bytes.len() as u64;
    match random.below(8) {
        0 | 1 => return bytes,
        2 => bytes.truncate(random.below(len) as usize),
        3 => bytes.extend([0, 1, 2]),
        4 => bytes[4 + random.below(3) as usize] = random.pick(&[0, 1, 2, 3, 255]),
        5 => bytes[7] = random.pick(&[0, 1, 7, 8, 9, 255]),
        _ => bytes[random.below(len) as usize] = random.pick(&[0, 1, 2, 8, 9, 16, 17, 255]),
    }
    if random.percent(85) && bytes.len() >= 4 {
        let count = bytes.len() as u32 - 4;
        bytes[..4].copy_from_slice(&count.to_be_bytes());
    }
    bytes
}

/// Every damaged copy: cut at each length, with the count as it was and put
/// right; each byte changed in five ways; up to nine bytes added; counts that
/// are wrong.
fn damaged(bytes: &[u8]) -> Vec<Vec<u8>> {
    let mut all = Vec::new();
    for len in 0..bytes.len() {
        let cut = bytes[..len].to_vec();
        all.extend(with_count_right(&cut));
        all.push(cut);
    }
    for place in 0..bytes.len() {
        let byte = bytes[place];
        let others = [
            byte.wrapping_add(1),
            byte.wrapping_sub(1),
            !byte,
            byte ^ 0x80,
            17,
        ];
        for other in others {
            let mut changed = bytes.to_vec();
            changed[place] = other;
            all.push(changed);
        }
    }
    for added in 1..=9 {
        for byte in [0, 1, 255] {
            let longer = [bytes, &vec![byte; added]].concat();
            all.extend(with_count_right(&longer));
            all.push(longer);
        }
    }
    let count = bytes.len() as u32 - 4;
    for wrong in [
        0,
        1,
        3,
        count - 1,
        count + 1,
        count + 4,
        count << 8,
        count.swap_bytes(),
        !count,
        u32::MAX,
    ] {
        all.push([&wrong.to_be_bytes(), &bytes[4..]].concat());
    }
    all
}

/// The bytes with the count of those behind it, if there is room for it.
fn with_count_right(bytes: &[u8]) -> Option<Vec<u8>> {
    let rest = bytes.get(4..)?;
    Some([&(rest.len() as u32).to_be_bytes(), rest].concat())
}

/// Every byte string of up to six bytes from 0 to 3, and behind a right count
/// and version every one of up to five.
pub fn small() -> impl Iterator<Item = Case> {
    let short = (0..=6).flat_map(strings);
    let behind = (0..=5).flat_map(strings).filter_map(|rest| {
        let bytes = [&[0, 0, 0, 0, 1], &rest[..]].concat();
        with_count_right(&bytes)
    });
    short.chain(behind).map(Case::Read)
}

/// Every string of `len` bytes from 0 to 3.
fn strings(len: u32) -> impl Iterator<Item = Vec<u8>> {
    (0..4u64.pow(len)).map(move |n| (0..len).map(|place| (n >> (2 * place) & 3) as u8).collect())
}
