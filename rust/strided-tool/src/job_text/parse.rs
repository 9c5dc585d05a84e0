//! From text to a job.

use std::collections::BTreeMap;

use strided::{ElementType, GatherJob, GatherSpec, Job, ScatterJob, ScatterSpec, ViewLayout};

use super::values::{list, number};
use super::TextError;

const COUNT: &str = "a whole number from 0 to 2^64 - 1";
const STEP: &str = "a whole number from -2^63 to 2^63 - 1";

type Parsed<T> = Result<T, TextError>;

/// The job that a text describes. What the library refuses of it is not looked at here.
pub fn parse(text: &str) -> Parsed<Job> {
    let mut fields = Fields::read(text)?;
    let kind = fields.wanted("kind")?;
    match kind.text {
        "gather" => gather(&mut fields).map(Job::Gather),
        "scatter" => scatter(&mut fields).map(Job::Scatter),
        other => Err(kind.wrong(format!("kind is `{other}`; give gather or scatter"))),
    }
}

/// A list of axes or sizes.
pub fn axes(text: &str) -> Result<Vec<usize>, String> {
    list(text, COUNT)
}

fn gather(fields: &mut Fields<'_>) -> Parsed<GatherJob> {
    let lists = [
        "offset_dims",
        "collapsed_slice_dims",
        "start_index_map",
        "slice_sizes",
    ];
    fields.all_known("gather", ["operand", "index", "dest"], &lists)?;
    Ok(GatherJob {
        element: fields.element()?,
        operand: fields.view("operand")?,
        index: fields.view("index")?,
        dest: fields.view("dest")?,
        spec: GatherSpec {
            offset_dims: fields.axes("offset_dims")?,
            collapsed_slice_dims: fields.axes("collapsed_slice_dims")?,
            start_index_map: fields.axes("start_index_map")?,
            index_vector_dim: fields.count("index_vector_dim")?,
            slice_sizes: fields.axes("slice_sizes")?,
        },
    })
}

fn scatter(fields: &mut Fields<'_>) -> Parsed<ScatterJob> {
    let lists = [
        "update_window_dims",
        "inserted_window_dims",
        "scatter_dims_to_operand_dims",
    ];
    fields.all_known("scatter", ["index", "updates", "dest"], &lists)?;
    Ok(ScatterJob {
        element: fields.element()?,
        index: fields.view("index")?,
        updates: fields.view("updates")?,
        dest: fields.view("dest")?,
        spec: ScatterSpec {
            update_window_dims: fields.axes("update_window_dims")?,
            inserted_window_dims: fields.axes("inserted_window_dims")?,
            scatter_dims_to_operand_dims: fields.axes("scatter_dims_to_operand_dims")?,
            index_vector_dim: fields.count("index_vector_dim")?,
        },
    })
}

/// A value with its line.
#[derive(Clone, Copy)]
struct Value<'a> {
    line: usize,
    text: &'a str,
}

impl Value<'_> {
    fn wrong(&self, what: String) -> TextError {
        TextError::at(self.line, what)
    }
}

/// The values that have not been taken yet, by key.
struct Fields<'a> {
    values: BTreeMap<&'a str, Value<'a>>,
}

impl<'a> Fields<'a> {
    fn read(text: &'a str) -> Parsed<Fields<'a>> {
        let mut values = BTreeMap::new();
        for (line, whole) in (1..).zip(text.lines()) {
            let content = whole.split('#').next().unwrap_or("").trim();
            if content.is_empty() {
                continue;
            }
            let (key, value) = content.split_once('=').ok_or_else(|| {
                TextError::at(line, format!("`{content}` is not of the form key = value"))
            })?;
            let value = Value {
                line,
                text: value.trim(),
            };
            if let Some(first) = values.insert(key.trim(), value) {
                let what = format!("`{}` stands already on line {}", key.trim(), first.line);
                return Err(TextError::at(line, what));
            }
        }
        Ok(Fields { values })
    }

    fn wanted(&mut self, key: &str) -> Parsed<Value<'a>> {
        self.values
            .remove(key)
            .ok_or_else(|| TextError::missing(format!("the line `{key} = ..` is missing")))
    }

    fn element(&mut self) -> Parsed<ElementType> {
        let value = self.wanted("element")?;
        match value.text {
            "i32" => Ok(ElementType::I32),
            "f64" => Ok(ElementType::F64),
            other => Err(value.wrong(format!("element is `{other}`; give i32 or f64"))),
        }
    }

    fn axes(&mut self, key: &str) -> Parsed<Vec<usize>> {
        let value = self.wanted(key)?;
        axes(value.text).map_err(|what| value.wrong(what))
    }

    fn count(&mut self, key: &str) -> Parsed<usize> {
        let value = self.wanted(key)?;
        number(value.text, COUNT).map_err(|what| value.wrong(what))
    }

    fn view(&mut self, name: &str) -> Parsed<ViewLayout> {
        let extents_key = format!("{name}.extents");
        let extents = self.wanted(&extents_key)?;
        let dims = axes(extents.text).map_err(|what| extents.wrong(what))?;
        let strides = self.values.remove(format!("{name}.strides").as_str());
        let offset = self.values.remove(format!("{name}.offset").as_str());
        let strides = strides_for(&dims, strides, extents.line)?;
        let offset = match offset {
            None => 0,
            Some(value) => number(value.text, STEP).map_err(|what| value.wrong(what))?,
        };
        Ok(ViewLayout {
            dims,
            strides,
            offset,
        })
    }

    /// The first key that a job of this kind does not have.
    fn all_known(&self, kind: &str, views: [&str; 3], lists: &[&str]) -> Parsed<()> {
        let is_known = |key: &str| match key.split_once('.') {
            Some((view, part)) => {
                views.contains(&view) && ["extents", "strides", "offset"].contains(&part)
            }
            None => ["kind", "element", "index_vector_dim"].contains(&key) || lists.contains(&key),
        };
        let unknown = self.values.iter().filter(|(key, _)| !is_known(key));
        match unknown.min_by_key(|(_, value)| value.line) {
            None => Ok(()),
            Some((key, value)) => Err(value.wrong(format!(
                "`{key}` is no key of a {kind}; `strided job make --help` lists them"
            ))),
        }
    }
}

/// The strides that stand there, or those of a packed layout.
fn strides_for(dims: &[usize], value: Option<Value<'_>>, line: usize) -> Parsed<Vec<isize>> {
    let (packed, line) = match value {
        None => (ViewLayout::column_major(dims), line),
        Some(value) => match value.text {
            "column-major" => (ViewLayout::column_major(dims), value.line),
            "row-major" => (ViewLayout::row_major(dims), value.line),
            text => return list(text, STEP).map_err(|what| value.wrong(what)),
        },
    };
    packed.map(|layout| layout.strides).ok_or_else(|| {
        TextError::at(
            line,
            "the strides of a packed layout do not fit; write them out",
        )
    })
}
