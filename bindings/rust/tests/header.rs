//! The crate's numbers beside the C header's: each has the other's names and values, so that neither is changed alone.
use std::collections::{BTreeMap, BTreeSet};
use t1mmu::numbers;

const HEADER: &str = include_str!("../../../include/t1mmu.h");

fn without_comments(text: &str) -> String {
    let mut parts = text.split("/*");
    let first = parts.next().unwrap_or_default().to_string();
    parts.fold(first, |kept, part| kept + part.split_once("*/").expect("the end of a comment").1)
}

fn number(text: &str) -> u64 {
    let digits = text.trim().trim_end_matches('u');
    let read = match digits.strip_prefix("0x") {
        Some(hex) => u64::from_str_radix(hex, 16),
        None => digits.parse(),
    };
    read.unwrap_or_else(|_| panic!("{text}: no number"))
}

/// `#define NAME number`; not a macro with arguments, and not the header's guard, which has no value.
fn defined(line: &str) -> Option<(&str, u64)> {
    let (name, value) = line.strip_prefix("#define T1MMU_")?.split_once(' ')?;
    (!name.contains('(')).then(|| (name, number(value)))
}

/// `NAME = number`, in an enum.
fn enumerated(item: &str) -> Option<(&str, u64)> {
    let (name, value) = item.split_once('=')?;
    Some((name.trim().strip_prefix("T1MMU_")?, number(value)))
}

/// The constants of the header, by their names without `T1MMU_`.
fn header() -> BTreeMap<String, u64> {
    let text = without_comments(HEADER);
    let (defines, rest): (Vec<&str>, Vec<&str>) = text.lines().partition(|l| l.starts_with('#'));
    let rest = rest.join(" ");
    let enums = rest.split(['{', '}', ',', ';']).filter_map(enumerated);
    defines.into_iter().filter_map(defined).chain(enums).map(|(name, value)| (name.to_string(), value)).collect()
}

/// The header's name for one of the crate's: T1MMU_8K is PAGE_8K here.
fn in_c(name: &str) -> String {
    match name.strip_prefix("PAGE_") {
        Some(size) => size.to_string(),
        None => name.to_string(),
    }
}

#[test]
fn numbers_are_the_headers() {
    let ours: BTreeMap<String, u64> = numbers::ALL.iter().map(|(name, value)| (in_c(name), *value)).collect();
    let theirs = header();
    let differ: BTreeSet<_> = ours.keys().chain(theirs.keys()).filter(|name| ours.get(*name) != theirs.get(*name)).collect();
    assert!(differ.is_empty(), "not the same in crate and header: {differ:?}");
}
