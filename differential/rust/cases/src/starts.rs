//! Starts that lie where the clamp begins to move them: at both ends of what
//! a window may have, one past them and far past them; in one component of a
//! window, in all or in none, and in one window of the batch or in all.

use crate::random::Random;
use lines::View;

/// Where a call's starts stand in its index view, and of each component the
/// last one that the clamp does not move.
pub struct Components<'a> {
    pub index: &'a View,
    pub vector: u64,
    pub lasts: Vec<u64>,
}

/// Which components are moved.
#[derive(Clone, Copy)]
enum Style {
    None,
    All,
    /// One of a window, or none.
    OneComponent,
    /// Those of one window.
    OneWindow,
    Any,
}

const STYLES: [Style; 9] = [
    Style::None,
    Style::All,
    Style::OneComponent,
    Style::OneComponent,
    Style::OneComponent,
    Style::OneWindow,
    Style::OneWindow,
    Style::Any,
    Style::Any,
];

/// Puts such starts into the slice of the index view. Windows that share a
/// start through stride 0 keep the one that was put last.
pub fn put_at_ends(random: &mut Random, components: &Components, starts: &mut [i64]) {
    let style = random.pick(&STYLES);
    let extents = components.batch();
    let windows = extents.iter().product::<u64>();
    let chosen = random.below(windows.max(1));
    for window in 0..windows {
        let alone = random.below(components.lasts.len() as u64 + 1);
        for (c, &last) in components.lasts.iter().enumerate() {
            let moves = match style {
                Style::None => false,
                Style::All => true,
                Style::OneComponent => c as u64 == alone,
                Style::OneWindow => window == chosen,
                Style::Any => random.percent(50),
            };
            let start = match moves {
                true => moved(random, last),
                false => kept(random, last),
            };
            starts[components.place(&extents, window, c as u64)] = start;
        }
    }
}

impl Components<'_> {
    /// The batch extents: the index's without the vector axis.
    fn batch(&self) -> Vec<u64> {
        let mut extents = self.index.layout.extents.clone();
        if (self.vector as usize) < extents.len() {
            extents.remove(self.vector as usize);
        }
        extents
    }

    /// The place of a component, the windows counted first axis fastest.
    fn place(&self, batch: &[u64], window: u64, component: u64) -> usize {
        let mut rest = window;
        let mut coordinate: Vec<u64> = batch
            .iter()
            .map(|&extent| {
                let digit = rest % extent;
                rest /= extent;
                digit
            })
            .collect();
        if coordinate.len() < self.index.layout.extents.len() {
            coordinate.insert(self.vector as usize, component);
        }
        let steps = coordinate.iter().zip(&self.index.layout.strides);
        let offset: i64 = steps.map(|(&c, &stride)| c as i64 * stride).sum();
        (self.index.offset + offset) as usize
    }
}

/// A start that the clamp leaves: often the first or the last.
fn kept(random: &mut Random, last: u64) -> i64 {
    let last = i64::try_from(last).unwrap_or(i64::MAX);
    let inside = (random.next() >> 1) as i64 % last.saturating_add(1);
    random.pick(&[0, last, last, inside])
}

/// A start that the clamp moves, on either side. There is none above where
/// the last one is the last of i64.
fn moved(random: &mut Random, last: u64) -> i64 {
    let far = random.below(1 << 40) as i64;
    let below = random.pick(&[-1, -1, -2, -1 - far, i64::MIN]);
    match i64::try_from(last)
        .ok()
        .and_then(|last| last.checked_add(1))
    {
        Some(past) if random.percent(60) => {
            let past = past.saturating_add(random.pick(&[0, 0, 1, far]));
            random.pick(&[past, past, past, i64::MAX])
        }
        _ => below,
    }
}
