//! The lengths and the rules of the header and those of the crate are the same.

use thinning::{
    Rule, CHAIN_TEXT, COSTS_TEXT, EDGES, KEPT_TEXT, LIST_TEXT, NETWORK_TEXT, PAGE_TEXT,
    REASONS_TEXT, STEPS, TABLE_TEXT, VERTICES,
};

const HEADER: &str = include_str!("../../include/thinning.h");

#[test]
fn the_header_has_the_same_lengths() {
    let defined = HEADER
        .lines()
        .filter_map(|line| line.strip_prefix("#define THINNING_")?.split_once(' '))
        .map(|(name, number)| (name, number.parse().expect("a length is a number")));
    let defined: Vec<(&str, usize)> = defined.collect();
    let due = [
        ("VERTICES", VERTICES),
        ("EDGES", EDGES),
        ("STEPS", STEPS),
        ("NETWORK_TEXT", NETWORK_TEXT),
        ("CHAIN_TEXT", CHAIN_TEXT),
        ("KEPT_TEXT", KEPT_TEXT),
        ("REASONS_TEXT", REASONS_TEXT),
        ("LIST_TEXT", LIST_TEXT),
        ("PAGE_TEXT", PAGE_TEXT),
        ("TABLE_TEXT", TABLE_TEXT),
        ("COSTS_TEXT", COSTS_TEXT),
    ];
    assert_eq!(defined, due);
}

/// The names and numbers of the header's rules.
fn rules() -> Vec<(&'static str, u8)> {
    let (_, listed) = HEADER
        .split_once("enum thinning_rule {\n")
        .expect("the header lists the rules");
    let (listed, _) = listed.split_once("};").expect("the list ends");
    let rule = |line: &'static str| {
        let (name, number) = line.trim().trim_end_matches(',').split_once(" = ")?;
        let name = name.strip_prefix("THINNING_RULE_")?;
        Some((name, number.parse().ok()?))
    };
    let rules = listed.lines().map(|line| rule(line).expect("a rule"));
    rules.collect()
}

#[test]
fn the_header_has_the_same_rules() {
    let due = [
        ("RESERVED", Rule::Reserved),
        ("KEPT_AS_Y", Rule::KeptAsY),
        ("KEPT_AS_X", Rule::KeptAsX),
        ("OUT_AS_X", Rule::OutAsX),
        ("KEPT_AT_ENDING", Rule::KeptAtEnding),
        ("DROPPED_AT_ENDING", Rule::DroppedAtEnding),
    ];
    assert_eq!(rules(), due.map(|(name, rule)| (name, rule.number())));
}
