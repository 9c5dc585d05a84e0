//! The fields of a stored job by their places.

/// The fields that follow one another, each with the place where it begins.
struct Walk<'a> {
    bytes: &'a [u8],
    wanted: u64,
    place: usize,
}

/// What stands, or should stand, at a place that the reader has refused.
pub fn field_at(bytes: &[u8], place: u64) -> String {
    if place == 0 {
        return count(bytes);
    }
    let mut walk = Walk {
        bytes,
        wanted: place,
        place: 0,
    };
    match walk.job() {
        Some(name) => format!("at byte {place} of {} stands {name}", bytes.len()),
        None => format!("the job ends before byte {place}, and bytes follow"),
    }
}

/// What the first four bytes say of those that follow.
fn count(bytes: &[u8]) -> String {
    match bytes.split_first_chunk::<4>() {
        Some((first, rest)) => format!(
            "its first four bytes say that {} follow, and {} do; is it a stored job, and whole?",
            u32::from_be_bytes(*first),
            rest.len()
        ),
        None => format!(
            "it has {} bytes, and a stored job begins with four that count the others",
            bytes.len()
        ),
    }
}

impl Walk<'_> {
    /// The name of the wanted field; none where the job ends before it.
    fn job(&mut self) -> Option<String> {
        let mut found = self.field("the count of the bytes that follow it", 4);
        found = found.or_else(|| self.field("the version, which is 1", 1));
        let kind = self.byte();
        let gather = kind == Some(1);
        let kind_name = match kind {
            Some(1) => "the kind, here 1, a gather",
            Some(2) => "the kind, here 2, a scatter",
            _ => "the kind, which is 1 for a gather and 2 for a scatter",
        };
        found = found.or_else(|| self.field(kind_name, 1));
        found = found.or_else(|| self.field("the element, which is 1 for i32 and 2 for f64", 1));
        let (views, lists) = if gather { GATHER } else { SCATTER };
        for view in views {
            found = found.or_else(|| self.view(view));
        }
        for list in lists {
            found = found.or_else(|| match *list {
                VECTOR => self.field(VECTOR, 8),
                name => self.entries(name),
            });
        }
        found
    }

    fn byte(&self) -> Option<u8> {
        self.bytes.get(self.place).copied()
    }

    fn field(&mut self, name: &str, size: usize) -> Option<String> {
        let here = u64::try_from(self.place) == Ok(self.wanted);
        self.place = self.place.saturating_add(size);
        here.then(|| name.to_owned())
    }

    fn view(&mut self, name: &str) -> Option<String> {
        let rank = self.byte().unwrap_or(0);
        let mut found = self.field(&format!("the rank of the {name}, which is at most 8"), 1);
        for part in ["extent", "stride"] {
            for axis in 0..rank {
                let what = format!("the {part} of axis {axis} of the {name}");
                found = found.or_else(|| self.field(&what, 8));
            }
        }
        found.or_else(|| self.field(&format!("the offset of the {name}"), 8))
    }

    fn entries(&mut self, name: &str) -> Option<String> {
        let count = self.byte().unwrap_or(0);
        let mut found = self.field(&format!("the count of {name}, which is at most 16"), 1);
        for entry in 0..count {
            let what = format!("entry {entry} of {name}");
            found = found.or_else(|| self.field(&what, 8));
        }
        found
    }
}

const VECTOR: &str = "index_vector_dim";

type Parts = ([&'static str; 3], &'static [&'static str]);

const GATHER: Parts = (
    ["operand", "index", "dest"],
    &[
        "offset_dims",
        "collapsed_slice_dims",
        "start_index_map",
        VECTOR,
        "slice_sizes",
    ],
);

const SCATTER: Parts = (
    ["index", "updates", "dest"],
    &[
        "update_window_dims",
        "inserted_window_dims",
        "scatter_dims_to_operand_dims",
        VECTOR,
    ],
);
