//! The argument `--rule`.

use std::fmt;
use std::str::FromStr;

use strided::{ElementType, Rule, RuleF64};

const LISTED: &str = "give add, lowest, highest, replace, or ceiling:LIMIT";

/// By what rule updates are put on a grid.
#[derive(Clone, Copy, Debug, Default, PartialEq)]
pub struct RuleName(RuleF64);

/// A rule of one of the two elements.
#[derive(Clone, Copy, Debug, PartialEq)]
pub enum TypedRule {
    /// Of i32.
    I32(Rule),
    /// Of f64.
    F64(RuleF64),
}

impl FromStr for RuleName {
    type Err = String;

    fn from_str(text: &str) -> Result<RuleName, String> {
        let (name, limit) = match text.split_once(':') {
            Some((name, limit)) => (name, Some(limit)),
            None => (text, None),
        };
        let rule = match (name, limit) {
            ("ceiling", Some(limit)) => RuleF64::Ceiling(number(limit)?),
            ("ceiling", None) => {
                return Err("a ceiling has a limit; give it as ceiling:2.5".to_owned())
            }
            ("add", None) => RuleF64::Add,
            ("lowest", None) => RuleF64::Lowest,
            ("highest", None) => RuleF64::Highest,
            ("replace", None) => RuleF64::Replace,
            ("add" | "lowest" | "highest" | "replace", Some(_)) => {
                return Err(format!("{name} has no limit; only ceiling has one"))
            }
            _ => return Err(format!("`{text}` is no rule; {LISTED}")),
        };
        Ok(RuleName(rule))
    }
}

/// The limit of a ceiling: any f64, but not one that digits are too large for.
fn number(text: &str) -> Result<f64, String> {
    match text.parse::<f64>() {
        Ok(limit) if limit.is_infinite() && text.contains(|c: char| c.is_ascii_digit()) => {
            Err(format!("`{text}` is too large for an f64"))
        }
        Ok(limit) => Ok(limit),
        Err(_) => Err(format!(
            "`{text}` is not a number; give a limit as ceiling:2.5"
        )),
    }
}

impl fmt::Display for RuleName {
    fn fmt(&self, f: &mut fmt::Formatter<'_>) -> fmt::Result {
        match self.0 {
            RuleF64::Add => f.write_str("add"),
            RuleF64::Lowest => f.write_str("lowest"),
            RuleF64::Highest => f.write_str("highest"),
            RuleF64::Replace => f.write_str("replace"),
            RuleF64::Ceiling(limit) => {
                // So large numbers are short, and whole ones have no fraction.
                let limit = format!("{limit:?}");
                write!(f, "ceiling:{}", limit.strip_suffix(".0").unwrap_or(&limit))
            }
        }
    }
}

impl RuleName {
    /// The rule for elements of this type; none where they do not have it.
    pub fn of(self, element: ElementType) -> Option<TypedRule> {
        let rule = match (element, self.0) {
            (ElementType::F64, rule) => return Some(TypedRule::F64(rule)),
            (ElementType::I32, RuleF64::Add) => Rule::Add,
            (ElementType::I32, RuleF64::Lowest) => Rule::Lowest,
            (ElementType::I32, RuleF64::Highest) => Rule::Highest,
            (ElementType::I32, RuleF64::Replace) => Rule::Replace,
            (ElementType::I32, RuleF64::Ceiling(_)) => return None,
        };
        Some(TypedRule::I32(rule))
    }

    /// What is done meanwhile.
    pub fn doing(self, updates: &str) -> String {
        match self.0 {
            RuleF64::Add => format!("adding {updates}"),
            _ => format!("putting {updates} on the grid by {self}"),
        }
    }

    /// What has been done.
    pub fn done(self, updates: &str, grid: &str) -> String {
        match self.0 {
            RuleF64::Add => format!("added {updates} to {grid}"),
            _ => format!("put {updates} on {grid} by {self}"),
        }
    }
}

#[cfg(test)]
#[allow(clippy::unwrap_used)]
mod tests {
    use super::*;

    fn rule(text: &str) -> RuleF64 {
        text.parse::<RuleName>().unwrap().0
    }

    #[test]
    fn names() {
        assert_eq!(RuleName::default().to_string(), "add");
        let limits = ["ceiling:2.5", "ceiling:-3", "ceiling:1e300", "ceiling:-inf"];
        for text in ["add", "lowest", "highest", "replace"]
            .into_iter()
            .chain(limits)
        {
            let name: RuleName = text.parse().unwrap();
            assert_eq!(name.to_string(), text);
            let of_i32 = name.of(ElementType::I32);
            assert_eq!(of_i32.is_none(), text.starts_with("ceiling"));
            assert_eq!(name.of(ElementType::F64), Some(TypedRule::F64(name.0)));
        }
        let lowest = RuleName(RuleF64::Lowest).of(ElementType::I32);
        assert_eq!(lowest, Some(TypedRule::I32(Rule::Lowest)));
    }

    #[test]
    fn limits() {
        assert_eq!(rule("ceiling:-3"), RuleF64::Ceiling(-3.0));
        assert_eq!(rule("ceiling:+.5e1"), RuleF64::Ceiling(5.0));
        assert_eq!(rule("ceiling:inf"), RuleF64::Ceiling(f64::INFINITY));
        assert!(matches!(rule("ceiling:NaN"), RuleF64::Ceiling(limit) if limit.is_nan()));
        assert!(matches!(rule("ceiling:-0"), RuleF64::Ceiling(limit) if limit.is_sign_negative()));
    }

    #[test]
    fn what_is_no_rule() {
        let refused = |text: &str, words: &str| {
            let said = text.parse::<RuleName>().unwrap_err();
            assert!(said.contains(words), "{text}: {said}");
        };
        for text in [
            "",
            "Add",
            "sum",
            " add",
            "add ",
            "1",
            ":",
            ":3",
            "ceilings:3",
        ] {
            refused(text, "is no rule; give add, lowest");
        }
        refused("ceiling", "a ceiling has a limit");
        for text in [
            "ceiling:",
            "ceiling: 3",
            "ceiling:3m",
            "ceiling:2,5",
            "ceiling:1:2",
        ] {
            refused(text, "is not a number");
        }
        for text in ["add:1", "lowest:", "highest:x", "replace:0"] {
            refused(text, "has no limit");
        }
        refused("ceiling:1e999", "is too large for an f64");
        refused("ceiling:-1e999", "is too large for an f64");
    }

    #[test]
    fn what_is_done_is_told() {
        let add = RuleName::default();
        assert_eq!(add.doing("3 updates"), "adding 3 updates");
        assert_eq!(
            add.done("3 updates", "the grid x.npy"),
            "added 3 updates to the grid x.npy"
        );
        let other = RuleName(RuleF64::Ceiling(-2.5));
        let doing = "putting 3 updates on the grid by ceiling:-2.5";
        assert_eq!(other.doing("3 updates"), doing);
        let done = "put 3 updates on the grid x.npy by ceiling:-2.5";
        assert_eq!(other.done("3 updates", "the grid x.npy"), done);
    }
}
