//! Tests of the crate against `rikkovan.h`, document 01 and bytes of every length.

mod cases;
mod constants;
mod header;
mod heads;
mod lengths;
mod outcomes;
mod places;
mod plans;
mod play;

use rikkovan::{Entry, Head, Journal, Plan, Register, WaitKind};

/// A file of the repository's examples.
fn example(name: &str) -> Vec<u8> {
    let path = format!("{}/../../examples/{name}", env!("CARGO_MANIFEST_DIR"));
    std::fs::read(&path).expect(&path)
}

/// The names of the examples in a folder.
fn examples(folder: &str) -> Vec<String> {
    let path = format!("{}/../../examples/{folder}", env!("CARGO_MANIFEST_DIR"));
    let files = std::fs::read_dir(&path).expect(&path);
    let name = |file: std::fs::DirEntry| file.file_name().into_string().expect("UTF-8");
    files
        .map(|file| format!("{folder}/{}", name(file.expect(&path))))
        .collect()
}

fn head(name: &str) -> Head {
    Head::from_bytes(&example(&format!("heads/{name}.head"))).expect(name)
}

fn plan(name: &str) -> Plan {
    Plan::from_record(&example(&format!("plans/{name}.plan"))).expect(name)
}

/// The default plan with a change.
fn changed(change: fn(&mut Plan)) -> Plan {
    let mut plan = Plan::DEFAULT;
    change(&mut plan);
    plan
}

/// What is stored into a register, in the order of the stores.
fn stores(journal: &Journal, into: Register) -> Vec<u32> {
    let value = |entry| match entry {
        Entry::Store { register, value } if register == into => Some(value),
        _ => None,
    };
    journal.iter().filter_map(value).collect()
}

/// How many answers the waits of a kind took, in their order.
fn waits(journal: &Journal, of: WaitKind) -> Vec<u16> {
    let taken = |entry| match entry {
        Entry::Wait { kind, answers } if kind == of => Some(answers),
        _ => None,
    };
    journal.iter().filter_map(taken).collect()
}
