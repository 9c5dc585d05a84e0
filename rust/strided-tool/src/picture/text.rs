//! The texts that a user has drawn beside the cells.

use std::str::FromStr;

use super::font;

/// Longer than any title; some thousand pixels.
const LONGEST: usize = 500;

/// A text that the font can draw, without spaces around it. An empty one is not drawn.
#[derive(Clone, Debug, Default, Eq, PartialEq)]
pub struct Text(String);

impl Text {
    /// Its letters.
    pub fn as_str(&self) -> &str {
        &self.0
    }
}

impl FromStr for Text {
    type Err = String;

    fn from_str(text: &str) -> Result<Text, String> {
        let text = text.trim_matches(' ');
        if let Some(letter) = text.chars().find(|letter| font::rows(*letter).is_none()) {
            let number = u32::from(letter);
            return Err(format!(
                "{letter:?} (U+{number:04X}) cannot be drawn; give the letters and signs of ASCII, and ° µ ² ³"
            ));
        }
        match text.chars().count() {
            count if count > LONGEST => {
                Err(format!("it has {count} characters; give at most {LONGEST}"))
            }
            _ => Ok(Text(text.to_owned())),
        }
    }
}

#[cfg(test)]
mod tests {
    use super::*;

    fn refusal(text: &str) -> String {
        text.parse::<Text>().err().unwrap_or_default()
    }

    #[test]
    fn what_can_be_drawn() {
        let text: Result<Text, String> = "  Depth in m² (-5 °C) ".parse();
        assert_eq!(text, Ok(Text("Depth in m² (-5 °C)".to_owned())));
        assert_eq!("   ".parse(), Ok(Text::default()));
        assert_eq!(refusal(&"x".repeat(500)), "");
    }

    #[test]
    fn what_cannot_be_drawn_is_named() {
        assert!(refusal("Kaimauer Süd").starts_with("'ü' (U+00FC)"));
        assert!(refusal("one\ntwo").starts_with("'\\n' (U+000A)"));
        assert!(refusal("深さ").starts_with("'深' (U+6DF1)"));
        assert!(refusal(&"²".repeat(501)).starts_with("it has 501 characters"));
    }
}
