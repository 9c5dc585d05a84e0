//! Reading lines.

use crate::{
    Answer, Call, Case, Data, Element, GatherSpec, Job, Layout, Number, Operand, Rule, ScatterSpec,
    Spec, View,
};
use std::str::{FromStr, Split};

/// The tokens of a line, read in the order of the format.
struct Tokens<'a> {
    rest: Split<'a, char>,
    held: Option<&'a str>,
}

impl<'a> Tokens<'a> {
    fn new(text: &'a str) -> Self {
        Tokens {
            rest: text.split(' '),
            held: None,
        }
    }

    fn next(&mut self) -> Option<&'a str> {
        self.held.take().or_else(|| self.rest.next())
    }

    /// The value of the next token, which must be `key=value`.
    fn value(&mut self, key: &str) -> Option<&'a str> {
        self.next()?.strip_prefix(key)?.strip_prefix('=')
    }

    /// As `value`, but another token is left to be read.
    fn optional(&mut self, key: &str) -> Option<&'a str> {
        let token = self.next()?;
        let value = token.strip_prefix(key).and_then(|t| t.strip_prefix('='));
        if value.is_none() {
            self.held = Some(token);
        }
        value
    }

    fn end(&mut self) -> Option<()> {
        self.next().is_none().then_some(())
    }
}

/// A number as Rust prints it; no plus sign.
fn number<T: FromStr>(text: &str) -> Option<T> {
    if text.starts_with('+') {
        return None;
    }
    text.parse().ok()
}

fn list<T>(text: &str, entry: impl Fn(&str) -> Option<T>) -> Option<Vec<T>> {
    if text.is_empty() {
        return Some(Vec::new());
    }
    text.split(',').map(entry).collect()
}

fn bits(text: &str) -> Option<u64> {
    let hexadecimal = text.len() == 16 && text.bytes().all(|b| b.is_ascii_hexdigit());
    if !hexadecimal {
        return None;
    }
    u64::from_str_radix(text, 16).ok()
}

fn data(text: &str, element: Element) -> Option<Data> {
    match element {
        Element::I32 => list(text, number).map(Data::I32),
        Element::F64 => list(text, bits).map(Data::F64),
    }
}

fn layout(text: &str) -> Option<Layout> {
    let (extents, strides) = text.split_once('|')?;
    Some(Layout {
        extents: list(extents, number)?,
        strides: list(strides, number)?,
    })
}

fn view(text: &str) -> Option<View> {
    let (text, offset) = text.rsplit_once('|')?;
    Some(View {
        layout: layout(text)?,
        offset: number(offset)?,
    })
}

fn element(text: &str) -> Option<Element> {
    match text {
        "i32" => Some(Element::I32),
        "f64" => Some(Element::F64),
        _ => None,
    }
}

fn axes(tokens: &mut Tokens, key: &str) -> Option<Vec<u64>> {
    list(tokens.value(key)?, number)
}

fn views(tokens: &mut Tokens, keys: [&str; 3]) -> Option<[View; 3]> {
    let mut one = |key| view(tokens.value(key)?);
    Some([one(keys[0])?, one(keys[1])?, one(keys[2])?])
}

fn job(kind: &str, element: Element, tokens: &mut Tokens) -> Option<Job> {
    let (views, spec) = match kind {
        "gather" => (views(tokens, ["op", "ix", "de"])?, gather_spec(tokens)?),
        "scatter" => (views(tokens, ["ix", "up", "de"])?, scatter_spec(tokens)?),
        _ => return None,
    };
    Some(Job {
        element,
        views,
        spec,
    })
}

fn gather_spec(tokens: &mut Tokens) -> Option<Spec> {
    Some(Spec::Gather(GatherSpec {
        offset_dims: axes(tokens, "od")?,
        collapsed_slice_dims: axes(tokens, "cd")?,
        start_index_map: axes(tokens, "sm")?,
        index_vector_dim: number(tokens.value("vd")?)?,
        slice_sizes: axes(tokens, "ss")?,
    }))
}

fn scatter_spec(tokens: &mut Tokens) -> Option<Spec> {
    Some(Spec::Scatter(ScatterSpec {
        update_window_dims: axes(tokens, "uw")?,
        inserted_window_dims: axes(tokens, "iw")?,
        scatter_dims_to_operand_dims: axes(tokens, "sm")?,
        index_vector_dim: number(tokens.value("vd")?)?,
    }))
}

/// The rule that a scatter names; Add where it names none.
fn rule(tokens: &mut Tokens, element: Element) -> Option<Rule> {
    match (tokens.optional("rule"), element) {
        (None | Some("add"), _) => Some(Rule::Add),
        (Some("lowest"), _) => Some(Rule::Lowest),
        (Some("highest"), _) => Some(Rule::Highest),
        (Some("replace"), _) => Some(Rule::Replace),
        (Some(text), Element::F64) => bits(text.strip_prefix("ceiling:")?).map(Rule::Ceiling),
        (Some(_), Element::I32) => None,
    }
}

fn call(kind: &str, tokens: &mut Tokens) -> Option<Call> {
    let element = element(tokens.next()?)?;
    let chart = match kind {
        "scatter" => optional(tokens, "op", view)?,
        _ => None,
    };
    let job = job(kind, element, tokens)?;
    let mut operand = match chart {
        Some(view) => Some(Operand {
            view,
            data: data(tokens.value("opd")?, element)?,
            layout: None,
        }),
        None => None,
    };
    let (source, index, keys) = slices(tokens, &job)?;
    let dest = data(tokens.value("ded")?, element)?;
    if let Some(operand) = &mut operand {
        operand.layout = optional(tokens, "cop", layout)?;
    }
    let mut layouts = [None, None, None];
    for (slot, key) in layouts.iter_mut().zip(keys) {
        *slot = optional(tokens, key, layout)?;
    }
    let rule = match job.spec {
        Spec::Gather(_) => Rule::Add,
        Spec::Scatter(_) => rule(tokens, element)?,
    };
    tokens.end()?;
    Some(Call {
        job,
        operand,
        source,
        index,
        dest,
        layouts,
        rule,
    })
}

/// What a token holds that need not be there; `None` where it is damaged.
fn optional<T>(
    tokens: &mut Tokens,
    key: &str,
    read: impl Fn(&str) -> Option<T>,
) -> Option<Option<T>> {
    match tokens.optional(key) {
        Some(text) => read(text).map(Some),
        None => Some(None),
    }
}

/// The slices of source and index, and the keys of the call's layouts.
fn slices(tokens: &mut Tokens, job: &Job) -> Option<(Data, Vec<i64>, [&'static str; 3])> {
    match job.spec {
        Spec::Gather(_) => {
            let source = data(tokens.value("opd")?, job.element)?;
            let index = list(tokens.value("ixd")?, number)?;
            Some((source, index, ["cop", "cix", "cde"]))
        }
        Spec::Scatter(_) => {
            let index = list(tokens.value("ixd")?, number)?;
            let source = data(tokens.value("upd")?, job.element)?;
            Some((source, index, ["cix", "cup", "cde"]))
        }
    }
}

fn bytes(text: &str) -> Option<Vec<u8>> {
    if text == "-" {
        return Some(Vec::new());
    }
    if text.is_empty() || !text.is_ascii() || text.len() % 2 != 0 {
        return None;
    }
    let byte = |at| {
        let pair: &str = &text[at..at + 2];
        let good = pair.bytes().all(|b| b.is_ascii_hexdigit());
        good.then(|| u8::from_str_radix(pair, 16).ok()).flatten()
    };
    (0..text.len()).step_by(2).map(byte).collect()
}

/// The case of a line without its ID; `None` where it is not in the format.
pub fn parse_case(text: &str) -> Option<Case> {
    let mut tokens = Tokens::new(text);
    match tokens.next()? {
        "read" => {
            let bytes = bytes(tokens.next()?)?;
            tokens.end()?;
            Some(Case::Read(bytes))
        }
        "write" => {
            let kind = tokens.next()?;
            let element = element(tokens.next()?)?;
            let job = Box::new(job(kind, element, &mut tokens)?);
            (tokens.next()? == "room").then_some(())?;
            let room = number(tokens.next()?)?;
            tokens.end()?;
            Some(Case::Write { job, room })
        }
        kind => Some(Case::Call(Box::new(call(kind, &mut tokens)?))),
    }
}

/// The answer of a line to a case of this element, without its ID.
pub fn parse_answer(text: &str, of: Element) -> Option<Answer> {
    let mut tokens = Tokens::new(text);
    (tokens.next()? == "answer").then_some(())?;
    let n = match tokens.next()? {
        "none" => return Some(Answer::None),
        "malformed" => return Some(Answer::Malformed),
        "panic" => return Some(Answer::Panic),
        "too-many" => return Some(Answer::TooMany),
        n => number(n)?,
    };
    let number = Number::new(n, number(tokens.next()?)?, number(tokens.next()?)?);
    (tokens.next()? == "dest").then_some(())?;
    let dest = data(tokens.next()?, of)?;
    let slid = slid(&mut tokens)?;
    Some(Answer::Called(number, dest, slid))
}

/// The number of windows that slid, where the line has one before it ends.
fn slid(tokens: &mut Tokens) -> Option<Option<u64>> {
    let slid = match tokens.next() {
        None => return Some(None),
        Some("slid") => number(tokens.next()?)?,
        Some(_) => return None,
    };
    tokens.end()?;
    Some(Some(slid))
}
