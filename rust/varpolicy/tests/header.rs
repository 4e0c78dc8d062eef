//! The numbers of include/varpolicy.h are those of this crate, and so are the fields of its records and the names that
//! functions have in the archive.

use std::collections::BTreeMap;
use varpolicy::{Attributes, Ground, Status};

const HEADER: &str = include_str!("../../../include/varpolicy.h");
const RECORDS: &str = concat!(include_str!("../src/abi.rs"), include_str!("../src/switches.rs"));

/// The number that a header line defines, if it defines one.
fn definition(line: &str) -> Option<(&str, u32)> {
    let mut words = line.strip_prefix("#define VARPOLICY_")?.split_whitespace();
    let (name, text) = (words.next()?, words.next()?.strip_suffix('U')?);
    let number = match text.strip_prefix("0x") {
        Some(digits) => u32::from_str_radix(digits, 16),
        None => text.parse(),
    };
    Some((name, number.ok()?))
}

#[test]
fn header_and_crate_have_the_same_numbers() {
    let mut defined: BTreeMap<&str, u32> = HEADER.lines().filter_map(definition).collect();
    let mut expect = |name: &str, number: usize| assert_eq!(defined.remove(name), Some(number as u32), "{name}");
    for status in Status::ALL {
        expect(status.name(), status.number() as usize);
    }
    for ground in Ground::ALL {
        expect(&format!("GROUND_{ground}"), ground.number() as usize);
    }
    for (attribute, name) in Attributes::NAMED {
        expect(&format!("ATTRIBUTE_{name}"), attribute.0 as usize);
    }
    for (place, name) in ["NO_LOCK", "LOCK_NOW", "LOCK_ON_CREATE", "LOCK_ON_VAR_STATE"].iter().enumerate() {
        expect(&format!("TYPE_{name}"), place);
    }
    // The limits are read from the header; tests/limits.rs holds them to the library.
    expect("RANK_WHOLE_NAMESPACE", varpolicy::WHOLE_NAMESPACE_RANK as usize);
    expect("ENTRY_VERSION", 0x0001_0000);
    expect("MIN_ENTRY_SIZE", varpolicy::MIN_ENTRY_SIZE);
    expect("MAX_ENTRY_SIZE", varpolicy::MAX_ENTRY_SIZE);
    expect("MAX_ENTRIES", varpolicy::MAX_ENTRIES);
    expect("POLICY_BYTES", varpolicy::POLICY_BYTES);
    expect("MAX_STORE_BYTES", varpolicy::MAX_STORE_BYTES);
    expect("MAX_PAYLOAD", varpolicy::MAX_PAYLOAD_BYTES);
    expect("MAX_NAME_UNITS", varpolicy::MAX_NAME_UNITS);
    expect("MAX_NAME_BYTES", 2 * varpolicy::MAX_NAME_UNITS);
    expect("NAMESPACE_BYTES", size_of::<varpolicy::Namespace>());
    expect("MAX_LINKS", varpolicy::MAX_LINKS);
    expect("MAX_PIECE", varpolicy::MAX_PIECE);
    expect("READER_BYTES", varpolicy::READER_BYTES);
    assert!(defined.is_empty(), "not checked: {defined:?}");
}

/// The fields of a C record with the types that they have in Rust, in order.
fn header_fields(record: &str) -> Vec<String> {
    let (before, _) = HEADER.split_once(&format!("}} varpolicy_{record};")).expect("a record of the header");
    let (_, body) = before.rsplit_once("typedef struct {").expect("its fields");
    let fields = body.lines().filter_map(|line| line.trim().split_once(';')).map(|(declared, _)| declared);
    fields
        .map(|declared| {
            let (c_type, name) = declared.split_once(char::is_whitespace).expect("a type and a name");
            format!("{}: {}", name.trim(), rust_type(c_type))
        })
        .collect()
}

fn rust_type(c_type: &str) -> &str {
    match c_type {
        "uint8_t" => "u8",
        "uint32_t" => "u32",
        "size_t" => "usize",
        "varpolicy_switches" => "SwitchBytes",
        "varpolicy_report" => "Report",
        other => other,
    }
}

/// The fields of a record of the crate that the library is lent or hands back, in order.
fn crate_fields(record: &str) -> Vec<String> {
    let (_, behind) = RECORDS.split_once(&format!("struct {record} {{")).expect("a record of the crate");
    let (body, _) = behind.split_once('}').expect("its fields");
    let fields = body.lines().map(str::trim).filter(|line| line.starts_with("pub"));
    fields.map(|line| line.trim_start_matches("pub(crate) ").trim_start_matches("pub ").replace(',', "")).collect()
}

#[test]
fn header_and_crate_have_the_same_records() {
    let records = [
        ("switches", "SwitchBytes"),
        ("started", "Started"),
        ("dumped", "Dumped"),
        ("state", "State"),
        ("found", "Found"),
        ("settled_answer", "Settled"),
        ("report", "Report"),
        ("written", "Written"),
        ("quarrel", "Quarrel"),
        ("verdict", "Verdict"),
        ("listing", "Listing"),
    ];
    // A reader is its bytes alone, which the crate passes as an array.
    assert_eq!(header_fields("reader"), ["bytes[VARPOLICY_READER_BYTES]: u8"]);
    assert_eq!(HEADER.matches("typedef struct {").count(), records.len() + 1);
    for (c_name, name) in records {
        assert!(!header_fields(c_name).is_empty(), "{name}");
        assert_eq!(header_fields(c_name), crate_fields(name), "{name}");
    }
}

/// Each function that has another name in the archive, with that name.
fn renamed() -> Vec<(&'static str, &'static str)> {
    let lines = HEADER.lines().filter_map(|line| line.strip_prefix("#define varpolicy_"));
    lines
        .map(|line| {
            let mut words = line.split_whitespace();
            (words.next().expect("a name"), words.next().expect("its name in the archive"))
        })
        .collect()
}

#[test]
fn header_and_crate_link_the_same_functions() {
    for (name, archived) in renamed() {
        let declared = format!("#[link_name = \"{archived}\"]\n    pub(crate) fn varpolicy_{name}(");
        assert!(RECORDS.contains(&declared), "{name}");
    }
    assert_eq!(RECORDS.matches("#[link_name").count(), renamed().len());
}

/// The names of all functions that the header declares.
fn functions() -> Vec<&'static str> {
    let declared = HEADER.lines().filter_map(|line| line.strip_prefix("varpolicy_")?.strip_suffix(" ("));
    declared.collect()
}

/// Whether one function of the header is lent the switches, is given them or hands them back.
fn has_switches(function: &str) -> bool {
    let (before, behind) = HEADER.split_once(&format!("\nvarpolicy_{function} (\n")).expect("its declaration");
    let (parameters, _) = behind.split_once(");").expect("its parameters");
    before.ends_with("varpolicy_started") || parameters.contains("varpolicy_switches")
}

/// E10 gave the switches a fourth byte: what was compiled with three may not link. `exit` is as old as the fourth.
#[test]
fn every_function_with_switches_has_the_name_of_e10() {
    let mut with_switches: Vec<&str> = functions().into_iter().filter(|function| has_switches(function)).collect();
    assert_eq!(with_switches.len(), 10);
    with_switches.retain(|function| *function != "exit");
    let expected: Vec<(&str, String)> =
        with_switches.into_iter().map(|function| (function, format!("varpolicy_{function}_e10"))).collect();
    let renamed: Vec<(&str, String)> = renamed().into_iter().map(|(name, archived)| (name, archived.into())).collect();
    assert_eq!(renamed, expected);
}
