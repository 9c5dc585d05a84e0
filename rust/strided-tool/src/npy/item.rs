//! The element types of a file, from and to bytes.

use super::Kind;

/// An element that a file can hold.
pub trait Item: Copy + Default {
    /// Its type in a header.
    const KIND: Kind;

    /// Appends the elements that the bytes hold; bytes past the last whole element are left.
    fn decode(bytes: &[u8], big_endian: bool, elements: &mut Vec<Self>);

    /// Appends the bytes of the elements, little-endian.
    fn encode(elements: &[Self], bytes: &mut Vec<u8>);
}

macro_rules! item {
    ($type:ty, $kind:expr, $size:literal) => {
        impl Item for $type {
            const KIND: Kind = $kind;

            fn decode(bytes: &[u8], big_endian: bool, elements: &mut Vec<Self>) {
                let read = if big_endian {
                    <$type>::from_be_bytes
                } else {
                    <$type>::from_le_bytes
                };
                let whole = bytes
                    .chunks_exact($size)
                    .filter_map(|chunk| chunk.first_chunk::<$size>());
                elements.extend(whole.map(|chunk| read(*chunk)));
            }

            fn encode(elements: &[Self], bytes: &mut Vec<u8>) {
                bytes.extend(elements.iter().flat_map(|element| element.to_le_bytes()));
            }
        }
    };
}

item!(i32, Kind::I32, 4);
item!(i64, Kind::I64, 8);
item!(f64, Kind::F64, 8);
