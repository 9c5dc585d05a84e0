//! Packs stored cases for the program `stored_cases`, which reads no text:
//! `pack CASES ANSWERS FILE`. The format stands in the README beside FILE.

use cases::answers::{load, Answered};
use lines::{Answer, Call, Data, Element, GatherSpec, Layout, Number, Rule, ScatterSpec, Spec};
use std::path::Path;
use std::{fs, io};

const MAGIC: &[u8; 8] = b"strided2";
/// What the program's buffer holds.
const MOST_WORDS: usize = 512;

fn main() -> io::Result<()> {
    let files: Vec<String> = std::env::args().skip(1).collect();
    let [cases, answers, file] = &files[..] else {
        eprintln!("usage: pack CASES ANSWERS FILE");
        std::process::exit(2);
    };
    let cases = load(Path::new(cases), &[Path::new(answers)])?;
    let mut body = Vec::new();
    for answered in &cases {
        let packed = packed(answered).map_err(|what| {
            let id = &answered.id;
            io::Error::other(format!("{id}: {what}"))
        })?;
        body.extend(packed);
    }
    fs::write(file, [header(cases.len(), &body), body].concat())
}

/// The count of cases, and what a reader finds damage by: the count of the
/// bytes that follow, their sum, and the sum of the sums after each.
fn header(cases: usize, body: &[u8]) -> Vec<u8> {
    let (mut sum, mut sums) = (0u64, 0u64);
    for &byte in body {
        sum = sum.wrapping_add(byte.into());
        sums = sums.wrapping_add(sum);
    }
    let mut header = MAGIC.to_vec();
    for word in [cases as u64, body.len() as u64, sum, sums] {
        header.extend(word.to_le_bytes());
    }
    header
}

fn packed(answered: &Answered) -> Result<Vec<u8>, &'static str> {
    let call = answered.call().ok_or("not a gather or a scatter")?;
    if call.rule != Rule::Add {
        return Err("a rule, which the program does not know");
    }
    let (number, after, slid) = match answered.answer(0) {
        Some(Answer::Called(number, after, slid)) => (number, after, slid),
        _ => return Err("no answer with a destination"),
    };
    let slid = match (number, slid) {
        (Number::DONE, Some(slid)) => slid,
        (Number::DONE, None) => return Err("no number of windows that slid"),
        (_, None) => 0,
        (_, Some(_)) => return Err("windows that slid in a call that was refused"),
    };
    let lists = lists(call, &after);
    let words = words(call, number, slid, &lists);
    if words.len() > MOST_WORDS {
        return Err("more words than the program holds");
    }
    let mut bytes = head(call, number, &lists)?;
    bytes.extend(words.iter().flat_map(|word| word.to_le_bytes()));
    Ok(bytes)
}

/// 32 bytes: kind, element, whether each view of the call has a layout of its
/// own, the answer's number, the counts of the lists, zeros.
fn head(call: &Call, number: Number, lists: &[Vec<u64>; 20]) -> Result<Vec<u8>, &'static str> {
    let kind = match call.job.spec {
        Spec::Gather(_) => 1,
        Spec::Scatter(_) => 2,
    };
    let element = match call.job.element {
        Element::I32 => 1,
        Element::F64 => 2,
    };
    let mut head = vec![kind, element];
    head.extend(call.layouts.iter().map(|own| u8::from(own.is_some())));
    head.push(u8::try_from(number.n).map_err(|_| "an unknown answer")?);
    for list in lists {
        head.push(u8::try_from(list.len()).map_err(|_| "a list of more than 255")?);
    }
    head.resize(32, 0);
    Ok(head)
}

/// The offsets in view order, the vector axis, a, b, how many windows slid,
/// and the lists' entries.
fn words(call: &Call, number: Number, slid: u64, lists: &[Vec<u64>; 20]) -> Vec<u64> {
    let vector = match &call.job.spec {
        Spec::Gather(spec) => spec.index_vector_dim,
        Spec::Scatter(spec) => spec.index_vector_dim,
    };
    let mut words: Vec<u64> = call.job.views.iter().map(|v| v.offset as u64).collect();
    words.extend([vector, number.a, number.b, slid]);
    words.extend(lists.iter().flatten());
    words
}

/// Extents and strides of the views, the spec's lists, extents and strides of
/// the call's own layouts, the slices in view order, the destination after.
fn lists(call: &Call, after: &Data) -> [Vec<u64>; 20] {
    let [first, second, third] = &call.job.views;
    let [a, b] = layout(Some(&first.layout));
    let [c, d] = layout(Some(&second.layout));
    let [e, f] = layout(Some(&third.layout));
    let [g, h, i, j] = spec(&call.job.spec);
    let [k, l] = layout(call.layouts[0].as_ref());
    let [m, n] = layout(call.layouts[1].as_ref());
    let [o, p] = layout(call.layouts[2].as_ref());
    let (index, source) = (signed(&call.index), data(&call.source));
    let [q, r] = match call.job.index_place() {
        0 => [index, source],
        _ => [source, index],
    };
    let (s, t) = (data(&call.dest), data(after));
    [a, b, c, d, e, f, g, h, i, j, k, l, m, n, o, p, q, r, s, t]
}

fn layout(layout: Option<&Layout>) -> [Vec<u64>; 2] {
    match layout {
        Some(layout) => [layout.extents.clone(), signed(&layout.strides)],
        None => [Vec::new(), Vec::new()],
    }
}

/// The lists in declared order; a scatter's has none in the last place.
fn spec(spec: &Spec) -> [Vec<u64>; 4] {
    match spec.clone() {
        Spec::Gather(GatherSpec {
            offset_dims,
            collapsed_slice_dims,
            start_index_map,
            slice_sizes,
            ..
        }) => [
            offset_dims,
            collapsed_slice_dims,
            start_index_map,
            slice_sizes,
        ],
        Spec::Scatter(ScatterSpec {
            update_window_dims,
            inserted_window_dims,
            scatter_dims_to_operand_dims,
            ..
        }) => [
            update_window_dims,
            inserted_window_dims,
            scatter_dims_to_operand_dims,
            Vec::new(),
        ],
    }
}

/// In two's complement.
fn signed(list: &[i64]) -> Vec<u64> {
    list.iter().map(|&entry| entry as u64).collect()
}

fn data(data: &Data) -> Vec<u64> {
    match data {
        Data::I32(list) => list.iter().map(|&entry| i64::from(entry) as u64).collect(),
        Data::F64(list) => list.clone(),
    }
}
