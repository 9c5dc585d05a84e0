//! The stored job: reader and writer.

use crate::checks::MOST_AXES;
use lines::{Answer, Element, GatherSpec, Job, Layout, Number, ScatterSpec, Spec, View};

const VERSION: u8 = 1;
const MOST_ENTRIES: usize = 16;

/// Reads the bytes of a stored job. 10 names the place of the first field
/// that is cut off or has an unlisted value, or of the first byte left over.
pub fn read(bytes: &[u8]) -> Answer {
    match Reader::job(bytes) {
        Ok(job) => Answer::Read(Number::DONE, Some(Box::new(job))),
        Err(place) => Answer::Read(Number::new(10, place as u64, 0), None),
    }
}

struct Reader<'a> {
    bytes: &'a [u8],
    place: usize,
}

/// The place of the field at fault stands for an error.
type Field<T> = Result<T, usize>;

impl Reader<'_> {
    fn job(bytes: &[u8]) -> Field<Job> {
        let head = bytes.first_chunk::<4>().ok_or(0usize)?;
        if u32::from_be_bytes(*head) as usize != bytes.len() - 4 {
            return Err(0);
        }
        let mut reader = Reader { bytes, place: 4 };
        reader.listed(|byte| (byte == VERSION).then_some(()))?;
        let gather = reader.listed(|byte| match byte {
            1 => Some(true),
            2 => Some(false),
            _ => None,
        })?;
        let element = reader.listed(|byte| match byte {
            1 => Some(Element::I32),
            2 => Some(Element::F64),
            _ => None,
        })?;
        let views = [reader.view()?, reader.view()?, reader.view()?];
        let spec = match gather {
            true => Spec::Gather(GatherSpec {
                offset_dims: reader.list()?,
                collapsed_slice_dims: reader.list()?,
                start_index_map: reader.list()?,
                index_vector_dim: reader.word()?,
                slice_sizes: reader.list()?,
            }),
            false => Spec::Scatter(ScatterSpec {
                update_window_dims: reader.list()?,
                inserted_window_dims: reader.list()?,
                scatter_dims_to_operand_dims: reader.list()?,
                index_vector_dim: reader.word()?,
            }),
        };
        if reader.place != bytes.len() {
            return Err(reader.place);
        }
        Ok(Job {
            element,
            views,
            spec,
        })
    }

    /// A byte with a listed value.
    fn listed<T>(&mut self, value: impl Fn(u8) -> Option<T>) -> Field<T> {
        let byte = self.bytes.get(self.place).ok_or(self.place)?;
        let value = value(*byte).ok_or(self.place)?;
        self.place += 1;
        Ok(value)
    }

    fn word(&mut self) -> Field<u64> {
        let rest = &self.bytes[self.place..];
        let word = rest.first_chunk::<8>().ok_or(self.place)?;
        self.place += 8;
        Ok(u64::from_be_bytes(*word))
    }

    fn words(&mut self, count: usize) -> Field<Vec<u64>> {
        (0..count).map(|_| self.word()).collect()
    }

    fn view(&mut self) -> Field<View> {
        let rank = self.listed(|byte| Some(usize::from(byte)).filter(|&r| r <= MOST_AXES))?;
        let extents = self.words(rank)?;
        let strides = self.words(rank)?.iter().map(|&w| w as i64).collect();
        let offset = self.word()? as i64;
        Ok(View {
            layout: Layout { extents, strides },
            offset,
        })
    }

    fn list(&mut self) -> Field<Vec<u64>> {
        let count = self.listed(|byte| Some(usize::from(byte)).filter(|&n| n <= MOST_ENTRIES))?;
        self.words(count)
    }
}

/// Writes a job into a buffer of `room` bytes. Refuses by 1, 2, 5, 9.
pub fn write(job: &Job, room: u64) -> Answer {
    match stored(job, room) {
        Ok(bytes) => Answer::Written(Number::DONE, Some(bytes)),
        Err(number) => Answer::Written(number, None),
    }
}

fn stored(job: &Job, room: u64) -> Result<Vec<u8>, Number> {
    let layouts = job.views.each_ref().map(|view| &view.layout);
    if layouts.iter().any(|l| l.extents.len() != l.strides.len()) {
        return Err(Number::new(1, 0, 0));
    }
    let ranks = layouts.map(|l| l.extents.len());
    if let Some(rank) = ranks.into_iter().find(|&rank| rank > MOST_AXES) {
        return Err(Number::new(2, rank as u64, MOST_AXES as u64));
    }
    if let Some(list) = lists(&job.spec).iter().find(|l| l.len() > MOST_ENTRIES) {
        return Err(Number::new(5, list.len() as u64, MOST_ENTRIES as u64));
    }
    let body = body(job);
    let need = body.len() as u64 + 4;
    if room < need {
        return Err(Number::new(9, 0, need));
    }
    let head = (body.len() as u32).to_be_bytes();
    Ok([&head[..], &body].concat())
}

fn lists(spec: &Spec) -> Vec<&[u64]> {
    match spec {
        Spec::Gather(s) => vec![
            &s.offset_dims,
            &s.collapsed_slice_dims,
            &s.start_index_map,
            &s.slice_sizes,
        ],
        Spec::Scatter(s) => vec![
            &s.update_window_dims,
            &s.inserted_window_dims,
            &s.scatter_dims_to_operand_dims,
        ],
    }
}

fn body(job: &Job) -> Vec<u8> {
    let gather = matches!(job.spec, Spec::Gather(_));
    let kind = if gather { 1 } else { 2 };
    let element = match job.element {
        Element::I32 => 1,
        Element::F64 => 2,
    };
    let mut bytes = vec![VERSION, kind, element];
    for view in &job.views {
        bytes.push(view.layout.extents.len() as u8);
        push_words(&mut bytes, &view.layout.extents);
        let strides: Vec<u64> = view.layout.strides.iter().map(|&s| s as u64).collect();
        push_words(&mut bytes, &strides);
        push_words(&mut bytes, &[view.offset as u64]);
    }
    match &job.spec {
        Spec::Gather(s) => {
            push_list(&mut bytes, &s.offset_dims);
            push_list(&mut bytes, &s.collapsed_slice_dims);
            push_list(&mut bytes, &s.start_index_map);
            push_words(&mut bytes, &[s.index_vector_dim]);
            push_list(&mut bytes, &s.slice_sizes);
        }
        Spec::Scatter(s) => {
            push_list(&mut bytes, &s.update_window_dims);
            push_list(&mut bytes, &s.inserted_window_dims);
            push_list(&mut bytes, &s.scatter_dims_to_operand_dims);
            push_words(&mut bytes, &[s.index_vector_dim]);
        }
    }
    bytes
}

fn push_words(bytes: &mut Vec<u8>, words: &[u64]) {
    for word in words {
        bytes.extend(word.to_be_bytes());
    }
}

fn push_list(bytes: &mut Vec<u8>, list: &[u64]) {
    bytes.push(list.len() as u8);
    push_words(bytes, list);
}
