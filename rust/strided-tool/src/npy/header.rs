//! The header of a file: a Python dictionary with the keys `descr`, `fortran_order` and `shape`.

use std::fmt;

/// The axes that NumPy itself allows.
const RANK_LIMIT: usize = 64;

/// The element types that the tool uses.
#[derive(Clone, Copy, Debug, Eq, PartialEq)]
pub enum Kind {
    /// 32-bit whole numbers.
    I32,
    /// 64-bit whole numbers.
    I64,
    /// 64-bit floats.
    F64,
}

impl Kind {
    /// The bytes of one element.
    pub fn size(self) -> usize {
        match self {
            Kind::I32 => 4,
            Kind::I64 | Kind::F64 => 8,
        }
    }

    /// NumPy's name for it, little-endian.
    pub fn descr(self) -> &'static str {
        match self {
            Kind::I32 => "<i4",
            Kind::I64 => "<i8",
            Kind::F64 => "<f8",
        }
    }
}

impl fmt::Display for Kind {
    fn fmt(&self, f: &mut fmt::Formatter<'_>) -> fmt::Result {
        f.write_str(match self {
            Kind::I32 => "i32",
            Kind::I64 => "i64",
            Kind::F64 => "f64",
        })
    }
}

/// What a header says.
#[derive(Clone, Debug, Eq, PartialEq)]
pub struct Header {
    /// The element type.
    pub kind: Kind,
    /// Whether the bytes of an element go from the highest to the lowest.
    pub big_endian: bool,
    /// First axis fastest; otherwise last axis fastest.
    pub fortran_order: bool,
    /// The extents.
    pub shape: Vec<usize>,
}

impl Header {
    /// Reads the dictionary; what is wrong with it otherwise.
    pub fn parse(text: &str) -> Result<Header, String> {
        let mut cursor = Cursor { rest: text };
        let mut parts = Parts::default();
        cursor.want('{')?;
        while !cursor.take('}') {
            parts.entry(&mut cursor)?;
            if !cursor.take(',') {
                cursor.want('}')?;
                break;
            }
        }
        cursor.end()?;
        parts.finish()
    }
}

/// The entries read so far.
#[derive(Default)]
struct Parts {
    element: Option<(Kind, bool)>,
    fortran_order: Option<bool>,
    shape: Option<Vec<usize>>,
}

impl Parts {
    fn entry(&mut self, cursor: &mut Cursor<'_>) -> Result<(), String> {
        let key = cursor.string()?;
        cursor.want(':')?;
        match key {
            "descr" => once(&mut self.element, element(cursor)?, key),
            "fortran_order" => once(&mut self.fortran_order, cursor.truth()?, key),
            "shape" => once(&mut self.shape, cursor.tuple()?, key),
            _ => Err(format!("its header has an unknown key '{}'", shown(key))),
        }
    }

    fn finish(self) -> Result<Header, String> {
        let missing = |key: &str| format!("its header has no '{key}'");
        let (kind, big_endian) = self.element.ok_or_else(|| missing("descr"))?;
        Ok(Header {
            kind,
            big_endian,
            fortran_order: self.fortran_order.ok_or_else(|| missing("fortran_order"))?,
            shape: self.shape.ok_or_else(|| missing("shape"))?,
        })
    }
}

fn once<T>(place: &mut Option<T>, value: T, key: &str) -> Result<(), String> {
    match place.replace(value) {
        None => Ok(()),
        Some(_) => Err(format!("its header has '{key}' twice")),
    }
}

/// The element type with its byte order: whether it is big-endian.
fn element(cursor: &mut Cursor<'_>) -> Result<(Kind, bool), String> {
    if cursor.sees('[') {
        return Err(unusable_type("[..], a record of fields"));
    }
    let descr = cursor.string()?;
    let native = cfg!(target_endian = "big");
    let (big_endian, base) = match descr.chars().next() {
        Some('<') => (false, descr.get(1..)),
        Some('>') => (true, descr.get(1..)),
        Some('=' | '|') => (native, descr.get(1..)),
        _ => (native, Some(descr)),
    };
    match base {
        Some("i4") => Ok((Kind::I32, big_endian)),
        Some("i8") => Ok((Kind::I64, big_endian)),
        Some("f8") => Ok((Kind::F64, big_endian)),
        other => Err(unusable_type(&format!(
            "'{}'{}",
            shown(descr),
            type_in_words(other.unwrap_or(""))
        ))),
    }
}

fn unusable_type(found: &str) -> String {
    format!(
        "its elements are of type {found}; the tool uses i32 ('<i4'), f64 ('<f8') and, for starts, i64 ('<i8')"
    )
}

/// What a NumPy type code means, after a comma; nothing for a code that is not known.
fn type_in_words(code: &str) -> &'static str {
    match code {
        "i1" => ", 8-bit whole numbers",
        "i2" => ", 16-bit whole numbers",
        "u1" => ", 8-bit whole numbers without sign",
        "u2" => ", 16-bit whole numbers without sign",
        "u4" => ", 32-bit whole numbers without sign",
        "u8" => ", 64-bit whole numbers without sign",
        "f2" => ", 16-bit floats",
        "f4" => ", 32-bit floats",
        "f16" => ", long floats",
        "b1" => ", truth values",
        "c8" | "c16" => ", complex numbers",
        "O" => ", Python objects",
        _ => match code.chars().next() {
            Some('S' | 'U') => ", text",
            Some('M' | 'm') => ", dates or times",
            Some('V') => ", raw bytes",
            _ => "",
        },
    }
}

/// A piece of a header as it can be printed: short, without control characters.
fn shown(text: &str) -> String {
    text.chars().take(40).flat_map(char::escape_debug).collect()
}

/// What is left of a header.
struct Cursor<'a> {
    rest: &'a str,
}

impl<'a> Cursor<'a> {
    fn space(&mut self) {
        self.rest = self.rest.trim_start_matches([' ', '\t', '\r', '\n']);
    }

    fn sees(&mut self, wanted: char) -> bool {
        self.space();
        self.rest.starts_with(wanted)
    }

    fn take(&mut self, wanted: char) -> bool {
        self.space();
        let after = self.rest.strip_prefix(wanted);
        self.rest = after.unwrap_or(self.rest);
        after.is_some()
    }

    fn want(&mut self, wanted: char) -> Result<(), String> {
        if self.take(wanted) {
            return Ok(());
        }
        Err(self.unexpected(&format!("'{wanted}'")))
    }

    fn unexpected(&self, wanted: &str) -> String {
        let found: String = self.rest.chars().take(12).collect();
        if found.is_empty() {
            return format!("its header ends where {wanted} should stand");
        }
        format!(
            "its header has \"{}\" where {wanted} should stand",
            shown(&found)
        )
    }

    fn end(&mut self) -> Result<(), String> {
        self.space();
        if self.rest.is_empty() {
            return Ok(());
        }
        Err(self.unexpected("its end"))
    }

    /// A string in single or double quotes, without escapes.
    fn string(&mut self) -> Result<&'a str, String> {
        self.space();
        let rest = self.rest;
        let text = ['\'', '"'].iter().find_map(|quote| {
            rest.strip_prefix(*quote)
                .and_then(|inside| inside.split_once(*quote))
        });
        match text {
            Some((inside, after)) => {
                self.rest = after;
                Ok(inside)
            }
            None => Err(self.unexpected("a string")),
        }
    }

    /// The letters or digits that come next.
    fn word(&mut self) -> &'a str {
        self.space();
        let end = self
            .rest
            .find(|c: char| !c.is_ascii_alphanumeric())
            .unwrap_or(self.rest.len());
        let (word, after) = self.rest.split_at_checked(end).unwrap_or((self.rest, ""));
        self.rest = after;
        word
    }

    fn truth(&mut self) -> Result<bool, String> {
        let before = self.rest;
        match self.word() {
            "True" => Ok(true),
            "False" => Ok(false),
            _ => {
                self.rest = before;
                self.space();
                Err(self.unexpected("True or False"))
            }
        }
    }

    /// A whole number; Python 2 wrote some with an L.
    fn extent(&mut self) -> Result<usize, String> {
        self.space();
        let before = self.rest;
        let word = self.word();
        let digits = word.strip_suffix('L').unwrap_or(word);
        if digits.is_empty() || !digits.bytes().all(|byte| byte.is_ascii_digit()) {
            self.rest = before;
            return Err(self.unexpected("an extent"));
        }
        digits.parse().map_err(|_| {
            format!(
                "its header has the extent {}, which is too large",
                shown(digits)
            )
        })
    }

    /// `()`, `(3,)`, `(3, 4)`; without a comma `(3)` is no tuple.
    fn tuple(&mut self) -> Result<Vec<usize>, String> {
        self.want('(')?;
        let mut extents = Vec::new();
        while !self.take(')') {
            extents.push(self.extent()?);
            let comma = self.take(',');
            if !comma && (extents.len() == 1 || !self.sees(')')) {
                return Err(self.unexpected("','"));
            }
            if extents.len() > RANK_LIMIT {
                return Err(format!("its header has more than {RANK_LIMIT} axes"));
            }
        }
        Ok(extents)
    }
}

#[cfg(test)]
#[allow(clippy::unwrap_used)]
mod tests {
    use super::*;

    fn parsed(text: &str) -> Header {
        Header::parse(text).unwrap()
    }

    fn refused(text: &str) -> String {
        Header::parse(text).unwrap_err()
    }

    #[test]
    fn numpy_writes_this() {
        let header = parsed("{'descr': '<i4', 'fortran_order': False, 'shape': (3, 4), }   \n");
        assert_eq!(header.kind, Kind::I32);
        assert!(!header.big_endian && !header.fortran_order);
        assert_eq!(header.shape, [3, 4]);
    }

    #[test]
    fn other_forms_of_the_same() {
        let header = parsed("{\"shape\":(7L,),'fortran_order':True,'descr':'>f8'}");
        assert_eq!(header.kind, Kind::F64);
        assert!(header.big_endian && header.fortran_order);
        assert_eq!(header.shape, [7]);
        assert!(
            parsed("{'descr': '|i8', 'fortran_order': False, 'shape': ()}")
                .shape
                .is_empty()
        );
        assert_eq!(
            parsed("{'descr': '=f8', 'fortran_order': False, 'shape': (0,)}").kind,
            Kind::F64
        );
    }

    #[test]
    fn nonsense_is_named() {
        for (text, part) in [
            ("", "ends where '{'"),
            ("{'descr': '<i4'", "ends where '}'"),
            ("{'descr': '<i4', 'fortran_order': False}", "no 'shape'"),
            ("{'descr': '<i4', 'descr': '<i4'}", "twice"),
            ("{'a': 1}", "unknown key 'a'"),
            ("{'shape': (3)}", "','"),
            ("{'shape': (3 4)}", "','"),
            ("{'shape': (-3,)}", "an extent"),
            ("{'shape': (3.5,)}", "','"),
            ("{'shape': (99999999999999999999,)}", "too large"),
            ("{'fortran_order': Maybe}", "True or False"),
            ("{'descr': '<f4'}", "'<f4', 32-bit floats"),
            ("{'descr': [('a', '<i4')]}", "a record of fields"),
            ("{'descr': ''}", "type ''"),
            ("{} x", "its end"),
        ] {
            assert!(refused(text).contains(part), "{text}: {}", refused(text));
        }
    }

    #[test]
    fn a_long_shape_is_refused() {
        let text = format!("{{'shape': ({})}}", "1,".repeat(65));
        assert!(refused(&text).contains("more than 64 axes"));
    }
}
