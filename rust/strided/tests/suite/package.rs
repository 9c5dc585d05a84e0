//! What the package says of itself.

use std::path::Path;

const NOTICE: &str = include_str!("../../../../NOTICE");

#[test]
fn the_licence_is_that_of_the_notice() {
    let licence = env!("CARGO_PKG_LICENSE");
    assert!(!licence.is_empty());
    assert!(NOTICE.contains(&format!("strided-rs is licensed under {licence}.")));
    for name in licence.split(" OR ") {
        let text = name.replace("Apache-2.0", "APACHE");
        assert!(NOTICE.contains(&format!("\nLICENSE-{text} of strided-rs\n")));
    }
}

#[test]
fn the_page_is_there() {
    let page = Path::new(env!("CARGO_MANIFEST_DIR")).join(env!("CARGO_PKG_README"));
    let text = std::fs::read_to_string(page).unwrap();
    assert!(text.starts_with("# Gather and scatter from Rust\n"));
    assert!(!env!("CARGO_PKG_DESCRIPTION").is_empty());
}
