//! What the crate and `rikkovan.h` both state, read from the header.

use rikkovan::{Plan, Refusal, Unfit};
use std::collections::BTreeSet;

pub const HEADER: &str = include_str!("../../../../include/rikkovan.h");
const DECLARED: &str = include_str!("../../src/sys.rs");

/// The names without `RIKKOVAN_` that are defined as a number.
pub fn defined() -> impl Iterator<Item = (&'static str, u64)> {
    HEADER.lines().filter_map(|line| {
        let mut words = line.strip_prefix("#define RIKKOVAN_")?.split_whitespace();
        Some((words.next()?, words.next()?.parse().ok()?))
    })
}

/// The rows of a table of the header: number, name without `RIKKOVAN_`, words.
pub fn rows(table: &str) -> impl Iterator<Item = (u32, &'static str, &'static str)> {
    let table = between(&format!("#define RIKKOVAN_{table}(ROW)"), "\n\n");
    table.lines().filter_map(|line| {
        let row = line.trim().strip_prefix("ROW(")?;
        let (number, row) = row.split_once(", RIKKOVAN_")?;
        let (name, row) = row.split_once(", \"")?;
        Some((number.parse().ok()?, name, row.split_once("\")")?.0))
    })
}

/// The text after `from`, up to `to`.
pub fn between(from: &str, to: &str) -> &'static str {
    let (_, rest) = HEADER.split_once(from).expect(from);
    rest.split_once(to).expect(to).0
}

#[test]
fn refusals_have_the_words_of_the_header() {
    let stated: Vec<(u32, &str)> = rows("REFUSALS")
        .map(|(number, _, words)| (number, words))
        .collect();
    let ours = Refusal::ALL.iter();
    let ours: Vec<(u32, &str)> = ours
        .map(|refusal| (refusal.number(), refusal.words()))
        .collect();
    assert_eq!(ours, stated);
}

#[test]
fn what_makes_a_head_unfit_has_the_words_of_the_header() {
    let stated = rows("UNFITS").map(|(number, _, words)| (number, words));
    let ours = Unfit::ALL.iter();
    let ours = ours.map(|unfit| (unfit.number(), unfit.words()));
    assert!(ours.eq(stated));
}

#[test]
fn the_default_plan_has_the_bytes_of_the_header() {
    let bytes = between("#define RIKKOVAN_DEFAULT_PLAN", "}");
    let bytes = bytes
        .split("0x")
        .skip(1)
        .map(|hex| u8::from_str_radix(&hex[..2], 16));
    let bytes: Vec<u8> = bytes.collect::<Result<_, _>>().expect("hex");
    assert_eq!(Plan::DEFAULT.to_record()[..], bytes);
    assert_eq!(Plan::from_record(&bytes), Ok(Plan::default()));
}

#[test]
fn the_declarations_are_those_of_the_header() {
    let prototypes = HEADER.split("\nuint64_t ").skip(1);
    let prototypes = prototypes.map(|rest| rest.split_once(");").expect("its end").0);
    let stated: BTreeSet<String> = prototypes.map(declaration).collect();

    let ours = DECLARED.split("pub fn ").skip(1);
    let ours = ours.map(|rest| rest.split_once(" -> u64;").expect("its end").0);
    let ours: BTreeSet<String> = ours.map(joined).collect();

    assert_eq!(ours, stated);
    assert!(!ours.is_empty());
}

/// A prototype of C as Rust declares it: `name(parameter: type, ..)`.
fn declaration(prototype: &str) -> String {
    let (name, parameters) = prototype.split_once('(').expect("parameters");
    let parameters: Vec<String> = parameters.split(',').map(parameter).collect();
    format!("{name}({})", parameters.join(", "))
}

fn parameter(stated: &str) -> String {
    let stated = stated.replace("[RIKKOVAN_RESTRICT ", "[");
    let (kind, name) = stated.trim().rsplit_once(' ').expect("a type and a name");
    let (name, array) = name
        .split_once('[')
        .map_or((name, false), |(name, _)| (name, true));
    let (name, pointer) = name
        .strip_prefix('*')
        .map_or((name, array), |name| (name, true));
    let (kind, pointer) = kind
        .strip_suffix(" *RIKKOVAN_RESTRICT")
        .map_or((kind, pointer), |kind| (kind, true));
    let (kind, constant) = kind
        .strip_prefix("const ")
        .map_or((kind, false), |kind| (kind, true));
    let kind = match kind {
        "uint8_t" => "u8",
        "uint16_t" => "u16",
        "uint32_t" => "u32",
        "uint64_t" => "u64",
        other => panic!("{other} in {stated}"),
    };
    match (pointer, constant) {
        (false, _) => format!("{name}: {kind}"),
        (true, true) => format!("{name}: *const {kind}"),
        (true, false) => format!("{name}: *mut {kind}"),
    }
}

/// A declaration of Rust in one line.
fn joined(declaration: &str) -> String {
    let words: Vec<&str> = declaration.split_whitespace().collect();
    words.join(" ").replace("( ", "(").replace(", )", ")")
}
