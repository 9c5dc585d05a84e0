//! Colours for values: from light to dark, so that they can be told apart by lightness alone.

use crate::window::Scale;

/// Red, green, blue.
pub type Colour = [u8; 3];

/// Behind the cells.
pub const PAPER: Colour = [255, 255, 255];
/// Letters and lines.
pub const INK: Colour = [40, 40, 40];
/// A cell that is NaN; none of the colours below comes near it, also for eyes that see few colours.
pub const NOT_A_NUMBER: Colour = [230, 120, 20];

/// From the shoals to the deep: the lightness falls all the way.
const DEPTHS: [Colour; 8] = [
    [250, 247, 214],
    [207, 232, 201],
    [146, 209, 196],
    [88, 175, 191],
    [54, 132, 178],
    [46, 88, 153],
    [31, 45, 108],
    [13, 16, 52],
];

/// The colour of a value.
pub fn colour_of(value: f64, scale: Scale) -> Colour {
    if value.is_nan() {
        return NOT_A_NUMBER;
    }
    colour_at(share(value, scale))
}

/// How far a value is from the low end to the high one, from 0 to 1; the middle where both ends are one.
fn share(value: f64, scale: Scale) -> f64 {
    // Halves, so that the distance of the ends fits.
    let reach = scale.high / 2.0 - scale.low / 2.0;
    if reach > 0.0 {
        ((value / 2.0 - scale.low / 2.0) / reach).clamp(0.0, 1.0)
    } else {
        0.5
    }
}

/// The colour at a share of the way, from 0 to 1.
pub fn colour_at(share: f64) -> Colour {
    let along = share.clamp(0.0, 1.0) * 7.0;
    let pairs = DEPTHS.iter().zip(DEPTHS.iter().skip(1));
    let steps = [0.0, 1.0, 2.0, 3.0, 4.0, 5.0, 6.0];
    let piece = pairs.zip(steps).rfind(|(_, step)| *step <= along);
    match piece {
        Some(((from, to), step)) => mixed(from, to, along - step),
        None => PAPER,
    }
}

fn mixed(from: &Colour, to: &Colour, share: f64) -> Colour {
    let [red, green, blue] = from;
    let [to_red, to_green, to_blue] = to;
    [(red, to_red), (green, to_green), (blue, to_blue)].map(|(from, to)| {
        let part = f64::from(*from) + (f64::from(*to) - f64::from(*from)) * share;
        // Between two bytes, and so a byte; a cast never leaves its range.
        part.round() as u8
    })
}

#[cfg(test)]
mod tests {
    use super::*;

    fn lightness(colour: Colour) -> f64 {
        let [red, green, blue] = colour.map(f64::from);
        0.2126 * red + 0.7152 * green + 0.0722 * blue
    }

    #[test]
    fn lightness_falls_all_the_way() {
        let shares = (0..=100).map(|step| f64::from(step) / 100.0);
        let light: Vec<f64> = shares.map(|share| lightness(colour_at(share))).collect();
        assert!(light
            .iter()
            .zip(light.iter().skip(1))
            .all(|(one, next)| one > next));
    }

    #[test]
    fn ends_and_odd_values() {
        let scale = Scale {
            low: -f64::MAX,
            high: f64::MAX,
        };
        assert_eq!(colour_of(-f64::MAX, scale), DEPTHS[0]);
        assert_eq!(colour_of(f64::INFINITY, scale), DEPTHS[7]);
        assert_eq!(colour_of(f64::NAN, scale), NOT_A_NUMBER);
        let flat = Scale {
            low: 3.0,
            high: 3.0,
        };
        assert_eq!(colour_of(3.0, flat), colour_at(0.5));
    }
}
