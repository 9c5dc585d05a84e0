//! Reading a file: format versions 1.0, 2.0 and 3.0.

use std::fs::File;
use std::io::{BufReader, ErrorKind, Read};
use std::path::{Path, PathBuf};

use super::{cells, shape_in_words, Grid, Header, Item};
use crate::failure::{Failure, Outcome};
use crate::progress::Progress;

const MARK: [u8; 6] = *b"\x93NUMPY";
/// A header is some hundred bytes; a longer one than this is not read.
const HEADER_LIMIT: u32 = 1 << 20;
/// The elements are read so many bytes at a time.
const PART: usize = 1 << 20;

/// A file whose header has been read.
pub struct Opened {
    path: PathBuf,
    input: BufReader<File>,
    header: Header,
    /// The bytes that follow the header, where the file is an ordinary one.
    follow: Option<u64>,
}

impl Opened {
    /// Opens a file and reads its header.
    pub fn open(path: &Path) -> Outcome<Opened> {
        let file = File::open(path).map_err(|error| Failure::of_io(path, "open it", &error))?;
        let found = file
            .metadata()
            .map_err(|error| Failure::of_io(path, "read it", &error))?;
        let mut input = BufReader::new(file);
        let (text, length) = header_text(path, &mut input)?;
        let header = Header::parse(&text).map_err(|why| Failure::of_file(path, why))?;
        let follow = found.is_file().then(|| found.len().saturating_sub(length));
        Ok(Opened {
            path: path.to_owned(),
            input,
            header,
            follow,
        })
    }

    /// What the header says.
    pub fn header(&self) -> &Header {
        &self.header
    }

    /// The elements, which the caller has found to be of this type.
    pub fn elements<T: Item>(mut self) -> Outcome<Grid<T>> {
        let size = self.size()?;
        self.length_is(size)?;
        let mut data = Vec::new();
        if self.follow.is_some() {
            reserve(&self.path, &mut data, size.count)?;
        }
        self.fill(&mut data, size)?;
        self.at_end()?;
        Ok(Grid {
            shape: self.header.shape,
            fortran_order: self.header.fortran_order,
            data,
        })
    }

    fn size(&self) -> Outcome<Size> {
        let shape = &self.header.shape;
        let count = cells(shape);
        let bytes = count.and_then(|count| count.checked_mul(self.header.kind.size()));
        count
            .zip(bytes)
            .map(|(count, bytes)| Size { count, bytes })
            .ok_or_else(|| {
                let shape = shape_in_words(shape);
                Failure::of_file(
                    &self.path,
                    format_args!("its shape {shape} has too many elements"),
                )
            })
    }

    /// An ordinary file is as long as its header says, before anything is made for its elements.
    fn length_is(&self, size: Size) -> Outcome<()> {
        match self.follow {
            Some(follow) if follow < to_u64(size.bytes) => Err(self.cut_off(size, follow)),
            Some(follow) if follow > to_u64(size.bytes) => Err(self.left_over()),
            _ => Ok(()),
        }
    }

    fn cut_off(&self, size: Size, follow: u64) -> Failure {
        let Size { count, bytes } = size;
        let shape = shape_in_words(&self.header.shape);
        Failure::of_file(
            &self.path,
            format_args!(
                "it is cut off: its shape {shape} asks for {count} elements of {} in {bytes} bytes, and {follow} bytes follow its header",
                self.header.kind
            ),
        )
    }

    fn left_over(&self) -> Failure {
        Failure::of_file(
            &self.path,
            "it has bytes past the elements that its header names",
        )
    }

    fn fill<T: Item>(&mut self, data: &mut Vec<T>, size: Size) -> Outcome<()> {
        let what = format!("reading {}", self.path.display());
        let mut progress = Progress::new(&what, to_u64(size.bytes));
        let mut part = Vec::new();
        let mut left = size.bytes;
        while left > 0 {
            let wanted = left.min(PART);
            part.clear();
            self.read_part(&mut part, wanted)?;
            if part.len() < wanted {
                let missing = left.saturating_sub(part.len());
                let follow = size.bytes.saturating_sub(missing);
                return Err(self.cut_off(size, to_u64(follow)));
            }
            reserve(&self.path, data, wanted.div_ceil(T::KIND.size()))?;
            T::decode(&part, self.header.big_endian, data);
            left = left.saturating_sub(wanted);
            progress.advance(to_u64(wanted));
        }
        Ok(())
    }

    fn read_part(&mut self, part: &mut Vec<u8>, wanted: usize) -> Outcome<()> {
        let mut limited = self.input.by_ref().take(to_u64(wanted));
        match limited.read_to_end(part) {
            Ok(_) => Ok(()),
            Err(error) => Err(Failure::of_io(&self.path, "read it", &error)),
        }
    }

    /// Where the length was not known before, nothing is left now.
    fn at_end(&mut self) -> Outcome<()> {
        let mut rest = Vec::new();
        self.read_part(&mut rest, 1)?;
        if rest.is_empty() {
            return Ok(());
        }
        Err(self.left_over())
    }
}

/// The elements that a shape names, and their bytes.
#[derive(Clone, Copy)]
struct Size {
    count: usize,
    bytes: usize,
}

fn to_u64(number: usize) -> u64 {
    u64::try_from(number).unwrap_or(u64::MAX)
}

fn reserve<T>(path: &Path, data: &mut Vec<T>, count: usize) -> Outcome<()> {
    data.try_reserve(count).map_err(|_| {
        Failure::of_file(
            path,
            format_args!("there is no memory for {count} elements"),
        )
    })
}

/// The header's text, and the bytes from the beginning of the file to the first element.
fn header_text(path: &Path, input: &mut impl Read) -> Outcome<(String, u64)> {
    let mut start = Start { path, input };
    let mark = start.bytes::<6>()?;
    if mark != MARK {
        return Err(not_npy(path, &mark));
    }
    let version = start.bytes::<2>()?;
    let (length, before) = match version {
        [1, 0] => (u32::from(u16::from_le_bytes(start.bytes()?)), 10),
        [2 | 3, 0] => (u32::from_le_bytes(start.bytes()?), 12),
        [major, minor] => {
            return Err(Failure::of_file(
                path,
                format_args!("it is of .npy version {major}.{minor}; 1.0, 2.0 and 3.0 are read"),
            ))
        }
    };
    if length > HEADER_LIMIT {
        return Err(Failure::of_file(
            path,
            format_args!("its header of {length} bytes is too long"),
        ));
    }
    let text = start.text(length)?;
    Ok((text, u64::from(length).saturating_add(before)))
}

fn not_npy(path: &Path, mark: &[u8]) -> Failure {
    let hint = if mark.starts_with(b"PK") {
        "it may be a .npz file: save each array by itself with numpy.save"
    } else {
        "write one with numpy.save"
    };
    Failure::of_file(path, format_args!("it is not a .npy file; {hint}"))
}

/// The beginning of a file, before its elements.
struct Start<'a, R> {
    path: &'a Path,
    input: &'a mut R,
}

impl<R: Read> Start<'_, R> {
    fn bytes<const N: usize>(&mut self) -> Outcome<[u8; N]> {
        let mut bytes = [0; N];
        self.input
            .read_exact(&mut bytes)
            .map_err(|error| match error.kind() {
                ErrorKind::UnexpectedEof => self.ends(),
                _ => Failure::of_io(self.path, "read it", &error),
            })?;
        Ok(bytes)
    }

    fn ends(&self) -> Failure {
        Failure::of_file(
            self.path,
            "it is not a .npy file, or it is cut off in its header",
        )
    }

    /// The dictionary: Latin-1 up to version 2.0 and UTF-8 in 3.0; what the tool uses of it is ASCII.
    fn text(&mut self, length: u32) -> Outcome<String> {
        let mut bytes = Vec::new();
        let mut limited = self.input.by_ref().take(u64::from(length));
        let count = limited
            .read_to_end(&mut bytes)
            .map_err(|error| Failure::of_io(self.path, "read it", &error))?;
        if to_u64(count) < u64::from(length) {
            return Err(self.ends());
        }
        Ok(String::from_utf8_lossy(&bytes).into_owned())
    }
}
