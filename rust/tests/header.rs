//! The crate says what include/t1subset.h says.

mod common;

use std::collections::BTreeMap;
use std::fs;
use t1subset::Number;

fn header() -> String {
    fs::read_to_string(common::top("include/t1subset.h")).expect("the header of the repository")
}

/// The numbers of an enum of the header, by number, with the names in capitals and without underscores.
fn enumerated(name: &str) -> BTreeMap<u32, String> {
    let header = header();
    let body = header.split(&format!("enum {name} {{")).nth(1).expect("an enum").split("};").next().unwrap();
    let mut numbers = BTreeMap::new();
    for item in body.lines().filter_map(|line| line.trim().strip_prefix("T1SUBSET_")) {
        let (name, rest) = item.split_once(" = ").expect("a name and its number");
        let digits: String = rest.chars().take_while(char::is_ascii_digit).collect();
        numbers.insert(digits.parse().expect("a number"), name.replace('_', ""));
    }
    numbers
}

#[test]
fn numbers() {
    let mut wanted = enumerated("t1subset_number");
    assert_eq!(wanted.remove(&0).as_deref(), Some("OK"));
    for number in 0..1000 {
        let known = Number::from(number);
        assert_eq!(u32::from(known), number);
        match wanted.get(&number) {
            Some(name) => assert_eq!(&format!("{known:?}").to_uppercase(), name),
            None => assert_eq!(known, Number::Other(number)),
        }
    }
    assert!(wanted.keys().all(|number| *number < 1000));
}

#[test]
fn versions() {
    let header = header();
    let digits = header.split("#define T1SUBSET_VERSION 0x").nth(1).expect("a version").split('u').next().unwrap();
    let version = u32::from_str_radix(digits, 16).unwrap();
    let parts = [version >> 16, version >> 8 & 255, version & 255].map(|part| part.to_string());
    assert_eq!(env!("CARGO_PKG_VERSION"), parts.join("."));
    assert_eq!(t1subset::version(), version);
}
