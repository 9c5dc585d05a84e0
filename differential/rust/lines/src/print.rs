//! Writing lines.

use crate::{Answer, Call, Case, Data, Element, Job, Layout, Number, Rule, Spec, View};
use std::fmt::{self, Display, Formatter};

struct List<'a, T>(&'a [T]);

impl<T: Display> Display for List<'_, T> {
    fn fmt(&self, f: &mut Formatter<'_>) -> fmt::Result {
        for (place, entry) in self.0.iter().enumerate() {
            let comma = if place == 0 { "" } else { "," };
            write!(f, "{comma}{entry}")?;
        }
        Ok(())
    }
}

struct Bits(u64);

impl Display for Bits {
    fn fmt(&self, f: &mut Formatter<'_>) -> fmt::Result {
        write!(f, "{:016x}", self.0)
    }
}

impl Display for Data {
    fn fmt(&self, f: &mut Formatter<'_>) -> fmt::Result {
        match self {
            Data::I32(v) => List(v).fmt(f),
            Data::F64(v) => List(&v.iter().map(|&b| Bits(b)).collect::<Vec<_>>()).fmt(f),
        }
    }
}

impl Display for Layout {
    fn fmt(&self, f: &mut Formatter<'_>) -> fmt::Result {
        write!(f, "{}|{}", List(&self.extents), List(&self.strides))
    }
}

impl Display for View {
    fn fmt(&self, f: &mut Formatter<'_>) -> fmt::Result {
        write!(f, "{}|{}", self.layout, self.offset)
    }
}

impl Display for Element {
    fn fmt(&self, f: &mut Formatter<'_>) -> fmt::Result {
        f.write_str(match self {
            Element::I32 => "i32",
            Element::F64 => "f64",
        })
    }
}

/// A job, with the view of the operand that a scatter may have ahead of it.
struct JobOn<'a>(&'a Job, Option<&'a View>);

impl Display for JobOn<'_> {
    fn fmt(&self, f: &mut Formatter<'_>) -> fmt::Result {
        let JobOn(job, operand) = self;
        let [first, second, third] = &job.views;
        match &job.spec {
            Spec::Gather(s) => write!(
                f,
                "gather {} op={first} ix={second} de={third} od={} cd={} sm={} vd={} ss={}",
                job.element,
                List(&s.offset_dims),
                List(&s.collapsed_slice_dims),
                List(&s.start_index_map),
                s.index_vector_dim,
                List(&s.slice_sizes),
            ),
            Spec::Scatter(s) => {
                write!(f, "scatter {}", job.element)?;
                if let Some(view) = operand {
                    write!(f, " op={view}")?;
                }
                write!(
                    f,
                    " ix={first} up={second} de={third} uw={} iw={} sm={} vd={}",
                    List(&s.update_window_dims),
                    List(&s.inserted_window_dims),
                    List(&s.scatter_dims_to_operand_dims),
                    s.index_vector_dim,
                )
            }
        }
    }
}

impl Display for Job {
    fn fmt(&self, f: &mut Formatter<'_>) -> fmt::Result {
        JobOn(self, None).fmt(f)
    }
}

impl Display for Rule {
    fn fmt(&self, f: &mut Formatter<'_>) -> fmt::Result {
        f.write_str(self.name())?;
        match *self {
            Rule::Ceiling(limit) => write!(f, ":{}", Bits(limit)),
            _ => Ok(()),
        }
    }
}

impl Display for Call {
    fn fmt(&self, f: &mut Formatter<'_>) -> fmt::Result {
        let (source, index, dest) = (&self.source, List(&self.index), &self.dest);
        let operand = self.operand.as_ref();
        write!(f, "{}", JobOn(&self.job, operand.map(|o| &o.view)))?;
        if let Some(operand) = operand {
            write!(f, " opd={}", operand.data)?;
        }
        let keys = match self.job.spec {
            Spec::Gather(_) => {
                write!(f, " opd={source} ixd={index} ded={dest}")?;
                ["cop", "cix", "cde"]
            }
            Spec::Scatter(_) => {
                write!(f, " ixd={index} upd={source} ded={dest}")?;
                ["cix", "cup", "cde"]
            }
        };
        if let Some(layout) = operand.and_then(|o| o.layout.as_ref()) {
            write!(f, " cop={layout}")?;
        }
        for (layout, key) in self.layouts.iter().zip(keys) {
            if let Some(layout) = layout {
                write!(f, " {key}={layout}")?;
            }
        }
        match self.rule {
            Rule::Add => Ok(()),
            rule => write!(f, " rule={rule}"),
        }
    }
}

struct Bytes<'a>(&'a [u8]);

impl Display for Bytes<'_> {
    fn fmt(&self, f: &mut Formatter<'_>) -> fmt::Result {
        if self.0.is_empty() {
            return f.write_str("-");
        }
        self.0.iter().try_for_each(|byte| write!(f, "{byte:02x}"))
    }
}

impl Display for Case {
    fn fmt(&self, f: &mut Formatter<'_>) -> fmt::Result {
        match self {
            Case::Call(call) => call.fmt(f),
            Case::Read(bytes) => write!(f, "read {}", Bytes(bytes)),
            Case::Write { job, room } => write!(f, "write {job} room {room}"),
        }
    }
}

impl Display for Number {
    fn fmt(&self, f: &mut Formatter<'_>) -> fmt::Result {
        write!(f, "{} {} {}", self.n, self.a, self.b)
    }
}

impl Display for Answer {
    fn fmt(&self, f: &mut Formatter<'_>) -> fmt::Result {
        match self {
            Answer::Called(number, dest, None) => write!(f, "answer {number} dest {dest}"),
            Answer::Called(number, dest, Some(slid)) => {
                write!(f, "answer {number} dest {dest} slid {slid}")
            }
            Answer::Read(number, Some(job)) => write!(f, "answer {number} job {job}"),
            Answer::Written(number, Some(bytes)) => {
                write!(f, "answer {number} bytes {}", Bytes(bytes))
            }
            Answer::Read(number, None) | Answer::Written(number, None) => {
                write!(f, "answer {number}")
            }
            Answer::None => f.write_str("answer none"),
            Answer::Malformed => f.write_str("answer malformed"),
            Answer::Panic => f.write_str("answer panic"),
            Answer::TooMany => f.write_str("answer too-many"),
        }
    }
}
