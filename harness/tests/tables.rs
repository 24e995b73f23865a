//! The examples of the format are those of the harness.

#[test]
fn the_page_is_current() {
    let page = include_str!("../../crates/pack_rules/proofs/Examples.antt");
    assert!(harness::pack_page::page() == page, "harness/tables pack > crates/pack_rules/proofs/Examples.antt");
}
