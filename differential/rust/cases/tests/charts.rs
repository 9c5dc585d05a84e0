//! A chart is compared bit for bit, but for a NaN that an add gave.

mod taken;

use taken::is_taken;

/// Two NaNs on the chart, the second of which an update lands on.
const NANS: &str = "scatter f64 op=2|1|0 ix=1|1|0 up=1|1|0 de=2|1|0 uw= iw=0 sm=0 vd=1 \
                    opd=7ff0000000000001,7ff8000000000002 ixd=1 upd=3ff0000000000000 \
                    ded=0000000000000000,0000000000000000";

#[test]
fn a_nan_of_the_chart_keeps_its_bits_where_nothing_lands() {
    let right = "answer 0 0 0 dest 7ff0000000000001,7ff8000000000002";
    let taken = |rule: &str, dest: &str| {
        let line = format!("answer 0 0 0 dest {dest} slid 0");
        is_taken("chart", &format!("{NANS}{rule}"), right, "port", &line)
    };
    assert!(taken("", "7ff0000000000001,7ff8000000000002"));
    assert!(taken("", "7ff0000000000001,fff8000000000003"));
    assert!(!taken("", "7ff8000000000001,7ff8000000000002"));
    assert!(!taken("", "0000000000000000,7ff8000000000002"));
    assert!(taken(" rule=lowest", "7ff0000000000001,7ff8000000000002"));
    assert!(!taken(" rule=lowest", "7ff0000000000001,fff8000000000003"));
}
