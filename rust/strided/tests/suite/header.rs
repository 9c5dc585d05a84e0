//! The functions of `ffi` beside those of the C header: the same names, with
//! the same parameters in the same order, a slice where the header has a
//! pointer and a count.

use std::collections::BTreeMap;
use strided::StridedError;

const HEADER: &str = include_str!("../../../../include/strided.h");
const DECLARED: &str = include_str!("../../src/ffi.rs");

/// The parameters of each function but the answer, as a name and a type in
/// Rust's words.
type Functions = BTreeMap<String, Vec<(String, String)>>;

#[test]
fn the_header_is_declared() {
    let header = of_header();
    assert_eq!(header.len(), 16);
    assert_eq!(declared(), header);
}

#[test]
fn one_version_everywhere() {
    let (_, rest) = HEADER.split_once("#define STRIDED_VERSION ").unwrap();
    let version: u64 = rest.split_whitespace().next().unwrap().parse().unwrap();
    assert_eq!(version, strided::ffi::strided_version());
    assert_eq!(version, super::archive::repository::VERSION);
    let name = format!("strided_version_{version}(");
    assert!(HEADER.contains(&format!("\nuint64_t {name}void);")));
    assert!(DECLARED.contains(&format!("fn {name}) -> u64;")));
}

/// Each version with a digest of the header as the compiler reads it. A change
/// of the functions gets a new version and a line here.
const VERSIONS: [(u64, u64); 4] = [
    (1, 0xa413_22fe_9128_3adc),
    (2, 0x1062_c459_c057_e190),
    (3, 0x2521_359a_04ce_b998),
    (4, 0xde90_b628_ee54_efdf),
];

#[test]
fn a_change_of_the_functions_has_a_new_version() {
    let now = (super::archive::repository::VERSION, digest(&code(HEADER)));
    assert_eq!(VERSIONS.last(), Some(&now));
}

#[track_caller]
fn numbered(refusal: StridedError, name: &str) {
    assert_eq!(refusal.number(), number_of(name));
}

#[test]
fn refusals_without_values_have_the_numbers_of_the_header() {
    numbered(StridedError::StrideLengthMismatch, "STRIDE_LENGTH_MISMATCH");
    numbered(StridedError::OffsetOverflow, "OFFSET_OVERFLOW");
    numbered(
        StridedError::NonInjectiveOutputLayout,
        "NON_INJECTIVE_OUTPUT",
    );
    numbered(StridedError::PlanLayoutMismatch, "PLAN_LAYOUT_MISMATCH");
}

#[test]
fn refusals_with_values_have_the_numbers_of_the_header() {
    let (rank, limit) = (9, 8);
    numbered(StridedError::RankTooLarge { rank, limit }, "RANK_TOO_LARGE");
    let (count, against) = (2, 1);
    numbered(
        StridedError::RankMismatch { count, against },
        "RANK_MISMATCH",
    );
    let (axis, rank) = (3, 1);
    numbered(StridedError::InvalidAxis { axis, rank }, "INVALID_AXIS");
    let (given, expected) = (1, 2);
    numbered(
        StridedError::ShapeMismatch { given, expected },
        "SHAPE_MISMATCH",
    );
    let (view, bytes_needed) = (3, 0);
    numbered(
        StridedError::BufferBounds { view, bytes_needed },
        "BUFFER_BOUNDS",
    );
    numbered(StridedError::JobBytes { place: 5 }, "JOB_BYTES");
    numbered(StridedError::UnlistedRule { rule: 5 }, "UNLISTED_RULE");
}

/// The number that an enum of the header gives to a name, without what all of
/// them begin with.
pub fn number_of(name: &str) -> u64 {
    let (_, rest) = HEADER
        .split_once(&format!("STRIDED_{name} = "))
        .expect(name);
    let digits = rest.split(|c: char| !c.is_ascii_digit()).next();
    digits.and_then(|digits| digits.parse().ok()).expect(name)
}

/// Without comments, and with one space where there are some.
fn code(header: &str) -> String {
    let parts = header.split("/*");
    let outside = parts.map(|part| part.split_once("*/").map_or(part, |(_, after)| after));
    let words = outside.flat_map(str::split_whitespace);
    words.collect::<Vec<_>>().join(" ")
}

/// FNV-1a.
fn digest(text: &str) -> u64 {
    text.bytes().fold(0xcbf2_9ce4_8422_2325, |digest, byte| {
        (digest ^ u64::from(byte)).wrapping_mul(0x100_0000_01b3)
    })
}

fn of_header() -> Functions {
    let functions = HEADER.split("\nvoid ").skip(1);
    functions.map(|text| function(text, of_c)).collect()
}

fn declared() -> Functions {
    let (_, declarations) = DECLARED
        .split_once("\nexports! {")
        .expect("the macro's use");
    let functions = declarations.split("\n    fn ").skip(1);
    functions.map(|text| function(text, of_rust)).collect()
}

/// `name(parameter, ...);` and what follows.
fn function<P>(text: &str, parameters: P) -> (String, Vec<(String, String)>)
where
    P: Fn(&[&str]) -> Vec<(String, String)>,
{
    let (name, rest) = text.split_once('(').expect("parameters");
    let (list, _) = rest.split_once(");").expect("their end");
    let list = list.split(',').map(str::trim).filter(|one| !one.is_empty());
    (name.to_string(), parameters(&list.collect::<Vec<_>>()))
}

/// `const double *name, size_t name_count`, `uint64_t name` and, at the end,
/// `uint64_t answer[4]`.
fn of_c(list: &[&str]) -> Vec<(String, String)> {
    let (last, mut rest) = list.split_last().expect("an answer");
    assert_eq!(*last, "uint64_t answer[4]");
    let mut parameters = Vec::new();
    while let [parameter, following @ ..] = rest {
        let (kind, name) = parameter.rsplit_once(' ').expect("a type and a name");
        let element = match kind.trim_start_matches("const ") {
            "uint64_t" => "u64",
            "int64_t" => "i64",
            "int32_t" => "i32",
            "uint8_t" => "u8",
            "double" => "f64",
            other => panic!("{other} is a type without a name in Rust"),
        };
        rest = following;
        let Some(name) = name.strip_prefix('*') else {
            parameters.push((name.to_string(), element.to_string()));
            continue;
        };
        let (count, following) = rest.split_first().expect("a count");
        assert_eq!(*count, format!("size_t {name}_count"));
        rest = following;
        let reference = match kind.starts_with("const ") {
            true => "&",
            false => "&mut ",
        };
        parameters.push((name.to_string(), format!("{reference}[{element}]")));
    }
    parameters
}

/// `name: &[f64]`.
fn of_rust(list: &[&str]) -> Vec<(String, String)> {
    let one = |text: &&str| {
        let (name, kind) = text.split_once(": ").expect("a name and a type");
        (name.to_string(), kind.to_string())
    };
    list.iter().map(one).collect()
}
