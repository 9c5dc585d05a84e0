//! Which numbers stand at a scale.

use crate::window::Scale;

/// At most so many values stand between the ends of a scale.
const BETWEEN: u32 = 5;

/// A number beside a scale: how far along it stands, from 0 to 1, and its text.
#[derive(Clone, Debug, PartialEq)]
pub struct Tick {
    /// How far along.
    pub share: f64,
    /// What stands there.
    pub text: String,
}

/// The two ends, and round numbers between them.
pub fn of_values(scale: Scale) -> Vec<Tick> {
    let Scale { low, high } = scale;
    let reach = high - low;
    if reach.partial_cmp(&0.0) != Some(std::cmp::Ordering::Greater) {
        return vec![Tick {
            share: 0.5,
            text: text(low, 0),
        }];
    }
    let step = round_step(reach / f64::from(BETWEEN));
    let decimals = decimals_of(step);
    let tick = |share, value, decimals| Tick {
        share,
        text: text(value, decimals),
    };
    // An end need not be round, and gets a decimal more.
    let finer = decimals.saturating_add(1);
    let mut ticks = vec![tick(0.0, low, finer), tick(1.0, high, finer)];
    if reach.is_finite() && step > 0.0 {
        let first = (low / step).ceil();
        for number in 0..=BETWEEN.saturating_mul(2) {
            let value = (first + f64::from(number)) * step;
            let share = (value - low) / reach;
            if share > 0.0 && share < 1.0 {
                ticks.push(tick(share, value, decimals));
            }
        }
    }
    ticks
}

/// The least of 1, 2 and 5 times a power of ten that is not below a number.
fn round_step(at_least: f64) -> f64 {
    let power = 10_f64.powf(at_least.log10().floor());
    [1.0, 2.0, 5.0, 10.0]
        .iter()
        .map(|factor| factor * power)
        .find(|step| *step >= at_least)
        .unwrap_or(at_least)
}

/// The decimals that tell two neighbours apart; a number of more than a few is written with an exponent, so twenty are enough.
fn decimals_of(step: f64) -> usize {
    let places = -step.log10().floor();
    places.clamp(0.0, 20.0) as usize
}

/// A number with so many decimals, fewer where it has fewer, or with an exponent where that is long. What is rounded to
/// nothing is 0, without a sign.
fn text(value: f64, decimals: usize) -> String {
    let plain = format!("{value:.decimals$}");
    let exact = format!("{value}");
    let short = if exact.len() <= plain.len() {
        exact
    } else {
        plain
    };
    if short.len() > 9 {
        return format!("{value:.3e}");
    }
    match short.contains(|digit| ('1'..='9').contains(&digit)) {
        true => short,
        false => "0".to_owned(),
    }
}

/// The first index, and round ones up to the last, all at least so many apart.
pub fn of_indices(first: usize, last: usize, apart: usize) -> Vec<usize> {
    let apart = apart.max(1);
    let step = round_index_step(apart);
    let second = first
        .checked_add(apart)
        .and_then(|near| near.checked_next_multiple_of(step));
    let round = second.map(|second| (second..=last).step_by(step));
    [first]
        .into_iter()
        .chain(round.into_iter().flatten())
        .collect()
}

fn round_index_step(at_least: usize) -> usize {
    let mut power = 1_usize;
    loop {
        for factor in [1, 2, 5] {
            let step = power.saturating_mul(factor);
            if step >= at_least {
                return step;
            }
        }
        power = power.saturating_mul(10);
    }
}

#[cfg(test)]
mod tests {
    use super::*;

    fn texts(low: f64, high: f64) -> Vec<String> {
        let ticks = of_values(Scale { low, high });
        assert!(ticks.iter().all(|tick| (0.0..=1.0).contains(&tick.share)));
        ticks.into_iter().map(|tick| tick.text).collect()
    }

    #[test]
    fn round_numbers_between_the_ends() {
        assert_eq!(texts(0.0, 100.0), ["0", "100", "20", "40", "60", "80"]);
        assert_eq!(
            texts(7312.0, 12044.0),
            ["7312", "12044", "8000", "9000", "10000", "11000", "12000"]
        );
        assert_eq!(
            texts(-0.25, 0.25),
            ["-0.25", "0.25", "-0.2", "-0.1", "0", "0.1", "0.2"]
        );
        assert_eq!(texts(-3.7366, 3.5781), ["-3.7", "3.6", "-2", "0", "2"]);
        assert_eq!(texts(3.0, 3.0), ["3"]);
    }

    #[test]
    fn nothing_has_no_sign() {
        let ends = |low, high| texts(low, high).into_iter().take(2).collect::<Vec<_>>();
        assert_eq!(ends(-0.0, -0.0), ["0"]);
        assert_eq!(ends(-0.0, 1.0), ["0", "1"]);
        assert_eq!(ends(-1.0, -0.0), ["-1", "0"]);
        assert_eq!(ends(-0.04, 3.0), ["0", "3"]);
        assert_eq!(ends(-0.4, 300.0), ["-0.4", "300"]);
        assert_eq!(ends(-3.0, -0.001), ["-3", "0"]);
        assert_eq!(ends(-1e-9, 1e10), ["0", "1.000e10"]);
    }

    #[test]
    fn extreme_scales() {
        assert_eq!(texts(-f64::MAX, f64::MAX).len(), 2);
        assert!(texts(0.0, f64::MIN_POSITIVE).len() >= 2);
        assert!(texts(0.0, 5e-324).len() >= 2);
        assert!(texts(1e300, 2e300).iter().all(|text| text.len() < 12));
        assert!(texts(1.0, 1.0 + f64::EPSILON).len() >= 2);
    }

    #[test]
    fn the_first_index_and_round_ones() {
        assert_eq!(of_indices(3, 42, 7), [3, 10, 20, 30, 40]);
        assert_eq!(of_indices(4, 42, 7), [4, 20, 30, 40]);
        assert_eq!(of_indices(0, 42, 7), [0, 10, 20, 30, 40]);
        assert_eq!(of_indices(0, 3, 1), [0, 1, 2, 3]);
        assert_eq!(of_indices(7, 7, 10), [7]);
        assert_eq!(of_indices(usize::MAX, usize::MAX, 7), [usize::MAX]);
        // A multiple of 5, and too near.
        assert_eq!(of_indices(usize::MAX - 3, usize::MAX, 5).len(), 1);
    }
}
