//! A side that counts windows can get by neither without the number nor with
//! another, and the oracle, which has none, not with one.

mod taken;

use std::process::Command;
use taken::is_taken;

/// Two windows that slid; a call that is refused; infinity - infinity, which
/// is any NaN, by a window that slid.
const READ: &str = "gather i32 op=5|1|0 ix=2|1|0 de=2,2|1,2|0 od=0 cd= sm=0 vd=1 ss=2 \
                    opd=10,20,30,40,50 ixd=4,-1 ded=0,0,0,0";
const REFUSED: &str = "scatter i32 ix=2|1|0 up=2|1|1 de=2|1|0 uw= iw=0 sm=0 vd=1 \
                       ixd=-1,9 upd=1,2 ded=0,0";
const NAN: &str = "scatter f64 ix=||0 up=||0 de=1|1|0 uw= iw=0 sm=0 vd=0 \
                   ixd=1 upd=fff0000000000000 ded=7ff0000000000000";

#[test]
fn the_number_must_be_the_models() {
    let right = "answer 0 0 0 dest 40,50,10,20";
    let taken = |name, end| is_taken("number", READ, right, name, &format!("{right}{end}"));
    for name in ["port", "stored", "written", "Oracle", "prot", ""] {
        assert!(taken(name, " slid 2"), "{name}");
        for end in [
            "", " slid 0", " slid 1", " slid 3", " slid", " slid ", " slid ?",
        ] {
            assert!(!taken(name, end), "{name}:{end}");
        }
    }
    for end in [
        " slid -2",
        " slid +2",
        " slid 2 ",
        " slid 2 slid 2",
        " slit 2",
        "  slid 2",
    ] {
        assert!(!taken("port", end), "{end}");
    }
}

#[test]
fn the_oracle_has_no_number() {
    let right = "answer 0 0 0 dest 40,50,10,20";
    let taken = |end| is_taken("oracle", READ, right, "oracle", &format!("{right}{end}"));
    assert!(taken(""));
    assert!(!taken(" slid 2"));
    assert!(!taken(" slid 0"));
}

#[test]
fn a_call_that_is_refused_has_no_number() {
    let right = "answer 9 2 0 dest 0,0";
    for name in ["port", "oracle"] {
        let taken = |end| is_taken("refused", REFUSED, right, name, &format!("{right}{end}"));
        assert!(taken(""), "{name}");
        assert!(!taken(" slid 0"), "{name}");
    }
}

#[test]
fn any_nan_has_the_number_beside_it() {
    let right = "answer 0 0 0 dest 7ff8000000000000";
    let other = "answer 0 0 0 dest fff8000000000001";
    let taken = |end| is_taken("nan", NAN, right, "port", &format!("{other}{end}"));
    assert!(taken(" slid 1"));
    assert!(!taken(" slid 0"));
    assert!(!taken(""));
}

#[test]
fn sides_have_names() {
    let compare = |sides: [&str; 2]| {
        let mut compare = Command::new(env!("CARGO_BIN_EXE_compare"));
        compare
            .arg("cases")
            .args(sides)
            .output()
            .unwrap()
            .status
            .code()
    };
    assert_eq!(compare(["oracle.txt", "port.txt"]), Some(2));
    assert_eq!(compare(["oracle=oracle.txt", "port.txt"]), Some(2));
}
