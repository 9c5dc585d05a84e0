//! The arguments `--window`, `--origin` and `--scale`.

use std::str::FromStr;

/// A part of an axis, from the first index up to the last, left out.
#[derive(Clone, Copy, Debug, Eq, PartialEq)]
pub struct Span {
    /// From here; from the beginning where none is given.
    pub from: Option<usize>,
    /// Up to here; up to the end where none is given.
    pub to: Option<usize>,
}

/// Rows and columns of a grid.
#[derive(Clone, Copy, Debug, Eq, PartialEq)]
pub struct Window {
    /// The rows.
    pub rows: Span,
    /// The columns.
    pub columns: Span,
}

/// The numbers of a grid's first row and column.
#[derive(Clone, Copy, Debug, Default, Eq, PartialEq)]
pub struct Origin {
    /// Of the first row.
    pub row: usize,
    /// Of the first column.
    pub column: usize,
}

/// The values at the ends of the colours.
#[derive(Clone, Copy, Debug, PartialEq)]
pub struct Scale {
    /// The lightest.
    pub low: f64,
    /// The darkest.
    pub high: f64,
}

impl FromStr for Window {
    type Err = String;

    fn from_str(text: &str) -> Result<Window, String> {
        let (rows, columns) = text
            .split_once(',')
            .ok_or("give rows and columns, as 10:30,40:80")?;
        Ok(Window {
            rows: rows.parse()?,
            columns: columns.parse()?,
        })
    }
}

impl FromStr for Span {
    type Err = String;

    fn from_str(text: &str) -> Result<Span, String> {
        let (from, to) = text
            .split_once(':')
            .ok_or_else(|| format!("`{text}` is no span; give two numbers, as 10:30"))?;
        Ok(Span {
            from: end(from)?,
            to: end(to)?,
        })
    }
}

fn end(text: &str) -> Result<Option<usize>, String> {
    match text.trim() {
        "" => Ok(None),
        number => whole(number).map(Some),
    }
}

fn whole(text: &str) -> Result<usize, String> {
    let number = text.trim();
    number
        .parse()
        .map_err(|_| format!("`{number}` is not a whole number from 0"))
}

impl FromStr for Origin {
    type Err = String;

    fn from_str(text: &str) -> Result<Origin, String> {
        let (row, column) = text
            .split_once(',')
            .ok_or("give a row and a column, as 0,18")?;
        Ok(Origin {
            row: whole(row)?,
            column: whole(column)?,
        })
    }
}

impl FromStr for Scale {
    type Err = String;

    fn from_str(text: &str) -> Result<Scale, String> {
        let (low, high) = text
            .split_once(':')
            .ok_or("give two numbers, as 8000:14000")?;
        let scale = Scale {
            low: finite(low)?,
            high: finite(high)?,
        };
        match scale.low < scale.high {
            true => Ok(scale),
            false => Err("the first number must be below the second".to_owned()),
        }
    }
}

fn finite(text: &str) -> Result<f64, String> {
    match text.trim().parse::<f64>() {
        Ok(number) if number.is_finite() => Ok(number),
        _ => Err(format!("`{}` is not a number", text.trim())),
    }
}

impl Span {
    /// The first index and the count of indices, of an axis that has some and is numbered from `first`; what is wrong where it
    /// has no such part.
    pub fn within(&self, first: usize, extent: usize, of: &str) -> Result<(usize, usize), String> {
        let past = first.checked_add(extent).ok_or_else(|| {
            format!("its {extent} {of}, numbered from {first}, go up to more than 2^64 - 1; give a lower --origin")
        })?;
        let from = self.from.unwrap_or(first);
        let to = self.to.unwrap_or(past);
        let ends = [("begins at", from), ("goes up to", to)];
        if let Some((goes, end)) = ends.iter().find(|(_, end)| !(first..=past).contains(end)) {
            let last = past.saturating_sub(1);
            return Err(format!(
                "the window {goes} {end}, and the grid has {extent} {of}, numbered from {first} to {last}"
            ));
        }
        match to.checked_sub(from) {
            Some(count) if count > 0 => Ok((from, count)),
            _ => Err(format!("the window from {from} up to {to} has no {of}")),
        }
    }
}

#[cfg(test)]
#[allow(clippy::unwrap_used)]
mod tests {
    use super::*;

    #[test]
    fn windows() {
        let window: Window = "10:30,40:".parse().unwrap();
        assert_eq!(window.rows.within(0, 30, "rows"), Ok((10, 20)));
        assert_eq!(window.columns.within(0, 41, "columns"), Ok((40, 1)));
        assert!(window.rows.within(0, 29, "rows").is_err());
        assert!(window.columns.within(0, 40, "columns").is_err());
        for text in [
            "",
            "1:2",
            "1,2",
            "1:2,3",
            "a:2,3:4",
            "-1:2,3:4",
            "1:2:3,4:5",
        ] {
            assert!(text.parse::<Window>().is_err(), "{text}");
        }
    }

    #[test]
    fn windows_of_numbered_grids() {
        let within = |text: &str, first, extent| {
            let span: Span = text.parse().unwrap();
            span.within(first, extent, "columns")
        };
        assert_eq!(within("20:30", 18, 30), Ok((20, 10)));
        assert_eq!(within(":", 18, 30), Ok((18, 30)));
        let has = "and the grid has 30 columns, numbered from 18 to 47";
        let outside = |goes: &str| Err(format!("the window {goes}, {has}"));
        assert_eq!(within("17:30", 18, 30), outside("begins at 17"));
        assert_eq!(within("49:", 18, 30), outside("begins at 49"));
        assert_eq!(within(":49", 18, 30), outside("goes up to 49"));
        assert_eq!(within("20:10", 18, 30), outside("goes up to 10"));
        assert!(within("48:", 18, 30).is_err_and(|why| why.contains("has no columns")));
        assert_eq!(within(":", usize::MAX - 2, 2), Ok((usize::MAX - 2, 2)));
        assert!(within(":", usize::MAX - 2, 3).is_err_and(|why| why.contains("a lower --origin")));
    }

    #[test]
    fn origins() {
        assert_eq!("0, 18".parse(), Ok(Origin { row: 0, column: 18 }));
        for text in ["", "0", "0,", ",18", "-1,0", "0,1,2", "0:18", "1.5,0"] {
            assert!(text.parse::<Origin>().is_err(), "{text}");
        }
    }

    #[test]
    fn scales() {
        let scale: Scale = "-5:1e3".parse().unwrap();
        assert_eq!((scale.low, scale.high), (-5.0, 1000.0));
        for text in ["", "1", "2:1", "1:1", "NaN:1", "0:inf", "a:b"] {
            assert!(text.parse::<Scale>().is_err(), "{text}");
        }
    }
}
