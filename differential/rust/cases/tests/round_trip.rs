//! What is printed can be read again.

use cases::jobs::Jobs;
use cases::{Generator, Ruled, WithOperands};
use lines::{parse_case, Answer, Call, Case, Data, Layout, Operand, Rule, View};

#[test]
fn cases_read_as_printed() {
    let calls = Ruled::new(WithOperands::new(Generator::new(3), 3, 50), 3);
    let mut operands = 0;
    for call in calls.take(6000) {
        operands += usize::from(call.operand.is_some());
        let case = Case::Call(Box::new(call));
        assert_eq!(parse_case(&case.to_string()), Some(case));
    }
    assert!((1000..2000).contains(&operands), "{operands}");
    for case in Jobs::new(3).take(3000) {
        assert_eq!(parse_case(&case.to_string()), Some(case));
    }
}

/// The rule of a scatter to one cell whose line ends with these tokens.
fn rule_read(element: &str, tokens: &str) -> Option<Rule> {
    let line = format!("scatter {element} ix=||0 up=||0 de=||0 uw= iw= sm= vd=0 ixd= upd= ded=");
    match parse_case(&(line + tokens))? {
        Case::Call(call) => Some(call.rule),
        _ => None,
    }
}

#[test]
fn rules_are_read() {
    for element in ["i32", "f64"] {
        assert_eq!(rule_read(element, ""), Some(Rule::Add));
        assert_eq!(rule_read(element, " rule=add"), Some(Rule::Add));
        assert_eq!(rule_read(element, " rule=lowest"), Some(Rule::Lowest));
        assert_eq!(rule_read(element, " rule=highest"), Some(Rule::Highest));
        assert_eq!(
            rule_read(element, " cde=| rule=replace"),
            Some(Rule::Replace)
        );
    }
    let limit = " rule=ceiling:fff0000000000001";
    assert_eq!(
        rule_read("f64", limit),
        Some(Rule::Ceiling(0xfff0_0000_0000_0001))
    );
    assert_eq!(rule_read("i32", limit), None);
}

#[test]
fn other_rules_are_outside_the_format() {
    for tokens in [
        " rule=",
        " rule=Add",
        " rule=ceiling",
        " rule=ceiling:",
        " rule=ceiling:fff000000000000",
        " rule=ceiling:0fff0000000000001",
        " rule=ceiling:+ff0000000000001",
        " rule=lowest:0000000000000000",
        " rule=lowest rule=lowest",
        " rule=lowest cde=|",
        " edge=clamp",
    ] {
        assert_eq!(rule_read("f64", tokens), None, "{tokens}");
    }
    let gather = "gather i32 op=||0 ix=0|1|0 de=||0 od= cd= sm= vd=0 ss= opd=1 ixd= ded=0";
    assert!(parse_case(gather).is_some());
    assert_eq!(parse_case(&format!("{gather} rule=add")), None);
    let job = "write scatter i32 ix=||0 up=||0 de=||0 uw= iw= sm= vd=0";
    assert!(parse_case(&format!("{job} room 9")).is_some());
    assert_eq!(parse_case(&format!("{job} rule=add room 9")), None);
}

#[test]
fn stored_jobs_read_as_written() {
    for call in Generator::new(4).take(3000) {
        let Answer::Written(_, Some(bytes)) = model::write(&call.job, u64::MAX) else {
            continue;
        };
        let Answer::Read(number, Some(job)) = model::read(&bytes) else {
            panic!("refused: {}", call.job);
        };
        assert_eq!((number.n, *job), (0, call.job));
    }
}

/// The call of a scatter with these tokens ahead of its index, before the
/// slice of it, and after its destination.
fn scatter_read(ahead: &str, slice: &str, after: &str) -> Option<Call> {
    let line = format!(
        "scatter i32{ahead} ix=||0 up=||0 de=||0 uw= iw= sm= vd=0{slice} ixd= upd= ded={after}"
    );
    match parse_case(&line)? {
        Case::Call(call) => Some(*call),
        _ => None,
    }
}

#[test]
fn operands_are_read() {
    assert_eq!(scatter_read("", "", "").unwrap().operand, None);
    let layout = |extent| Layout {
        extents: vec![extent],
        strides: vec![-1],
    };
    let operand = Operand {
        view: View {
            layout: layout(2),
            offset: 1,
        },
        data: Data::I32(vec![5, -6]),
        layout: None,
    };
    let call = scatter_read(" op=2|-1|1", " opd=5,-6", "").unwrap();
    assert_eq!(call.operand, Some(operand.clone()));
    let call = scatter_read(" op=2|-1|1", " opd=5,-6", " cop=3|-1 cix=| rule=lowest").unwrap();
    let layout = Some(layout(3));
    assert_eq!(call.operand, Some(Operand { layout, ..operand }));
    assert_eq!(call.layouts, [Some(Layout::default()), None, None]);
    assert_eq!(call.rule, Rule::Lowest);
}

#[test]
fn other_operands_are_outside_the_format() {
    for (ahead, slice, after) in [
        // Without a slice, without a view, with a view alone in the call.
        (" op=2|1|0", "", ""),
        ("", " opd=5,6", ""),
        ("", "", " cop=2|1"),
        // Damaged.
        (" op=2|1", " opd=5,6", ""),
        (" op=2|1|0 op=2|1|0", " opd=5,6", ""),
        (" op=2|1|0", " opd=5,x", ""),
        (" op=2|1|0", " opd=5,6", " cop=2|1|0"),
        // Behind another token.
        (" op=2|1|0", " opd=5,6", " cix=| cop=2|1"),
    ] {
        assert_eq!(
            scatter_read(ahead, slice, after),
            None,
            "{ahead}{slice}{after}"
        );
    }
    // Stored jobs have none.
    let job = "write scatter i32 op=||0 ix=||0 up=||0 de=||0 uw= iw= sm= vd=0 room 9";
    assert_eq!(parse_case(job), None);
}
