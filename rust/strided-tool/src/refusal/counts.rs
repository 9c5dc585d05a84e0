//! What a gather and a scatter share: axis lists, counts, and which of them a refusal means.

/// One thing that may have been refused: whether it is that, and what it says.
pub struct Candidate {
    holds: bool,
    text: String,
}

impl Candidate {
    /// Two counts that are those of the refusal, and differ.
    pub fn counts(found: (u64, u64), these: (usize, usize), text: String) -> Candidate {
        Candidate {
            holds: these.0 != these.1 && found == (wide(these.0), wide(these.1)),
            text,
        }
    }

    /// A list of which the refused axis is the first one that is out of range or repeated.
    pub fn list(found: (u64, u64), name: &str, axes: &[usize], rank: usize, of: &str) -> Candidate {
        let bad = first_bad(axes, rank);
        let text = match bad {
            Some(axis) if axis < rank => format!("{name} names axis {axis} twice"),
            _ => format!(
                "{name} names axis {}, and {of} has {rank} axes, numbered from 0",
                found.0
            ),
        };
        Candidate {
            holds: bad.map(|axis| (wide(axis), wide(rank))) == Some(found),
            text,
        }
    }

    /// The vector axis, which is at most the rank of the index.
    pub fn vector(found: (u64, u64), vector: usize, rank: usize) -> Candidate {
        Candidate {
            holds: vector > rank && found == (wide(vector), wide(rank.saturating_add(1))),
            text: format!(
                "index_vector_dim is {vector}, and the index has {rank} axes; give at most {rank}"
            ),
        }
    }

    /// The first window that is larger than its extent.
    pub fn windows(found: (u64, u64), windows: &[usize], extents: &[usize], of: &str) -> Candidate {
        let too_large = (0_usize..)
            .zip(windows.iter().zip(extents))
            .find(|(_, (window, extent))| window > extent);
        match too_large {
            Some((axis, (window, extent))) => Candidate {
                holds: found == (wide(axis), wide(extents.len())),
                text: format!(
                    "the window has {window} cells along axis {axis} of {of}, which has {extent}"
                ),
            },
            None => Candidate::none(),
        }
    }

    /// The first collapsed axis whose window is not 1.
    pub fn collapsed(
        found: (u64, u64),
        collapsed: &[usize],
        sizes: &[usize],
        rank: usize,
    ) -> Candidate {
        let first = collapsed
            .iter()
            .map(|axis| (*axis, sizes.get(*axis).copied().unwrap_or(0)))
            .find(|(_, size)| *size != 1);
        match first {
            Some((axis, size)) => Candidate {
                holds: found == (wide(axis), wide(rank)),
                text: format!("collapsed_slice_dims names axis {axis}, whose slice size is {size} and must be 1"),
            },
            None => Candidate::none(),
        }
    }

    fn none() -> Candidate {
        Candidate {
            holds: false,
            text: String::new(),
        }
    }
}

/// The first candidate that agrees with the refusal, in the order in which the library asks.
pub fn first(candidates: impl IntoIterator<Item = Candidate>) -> Option<String> {
    candidates
        .into_iter()
        .find(|candidate| candidate.holds)
        .map(|candidate| candidate.text)
}

/// A list that has no room in a stored job.
pub fn long_list(found: (u64, u64), lists: &[(&str, &[usize])]) -> Option<String> {
    lists
        .iter()
        .filter(|_| found.1 == wide(strided::LIST_LIMIT) && found.0 > found.1)
        .find(|(_, list)| wide(list.len()) == found.0)
        .map(|(name, _)| {
            format!(
                "{name} has {} entries; a stored job has room for {}",
                found.0, found.1
            )
        })
}

fn first_bad(axes: &[usize], rank: usize) -> Option<usize> {
    let mut seen: Vec<usize> = Vec::new();
    for axis in axes {
        if *axis >= rank || seen.contains(axis) {
            return Some(*axis);
        }
        seen.push(*axis);
    }
    None
}

/// The axes below the rank that a list does not name.
pub fn others(rank: usize, axes: &[usize]) -> Vec<usize> {
    (0..rank).filter(|axis| !axes.contains(axis)).collect()
}

/// The entries on these axes.
pub fn pick(entries: &[usize], axes: &[usize]) -> Vec<usize> {
    axes.iter()
        .filter_map(|axis| entries.get(*axis).copied())
        .collect()
}

/// How many components a start has.
pub fn components(index: &[usize], vector: usize) -> usize {
    index.get(vector).copied().unwrap_or(1)
}

/// The extents of the index without its vector axis.
pub fn batch(index: &[usize], vector: usize) -> Vec<usize> {
    pick(index, &others(index.len(), &[vector]))
}

pub fn wide(number: usize) -> u64 {
    u64::try_from(number).unwrap_or(u64::MAX)
}
