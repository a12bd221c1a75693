//! The rows of docs/vectors.json, which are from outside the product: a row a line.
#![allow(dead_code, reason = "each test uses a part")]

pub mod committee;

pub fn rows(list: &str) -> Vec<String> {
    let text = std::fs::read_to_string(concat!(
        env!("CARGO_MANIFEST_DIR"),
        "/../../docs/vectors.json"
    ))
    .unwrap();
    let head = format!("\"{list}\": [");
    let found: Vec<String> = text
        .lines()
        .skip_while(|line| *line != head)
        .skip(1)
        .take_while(|line| line.starts_with('{'))
        .map(String::from)
        .collect();
    assert!(!found.is_empty(), "no rows of {list}");
    found
}

/// What stands behind a name of a row, as far as the next comma or brace.
pub fn word<'a>(row: &'a str, name: &str) -> &'a str {
    let (_, behind) = row
        .split_once(&format!("\"{name}\":"))
        .unwrap_or_else(|| panic!("no {name}: {row}"));
    let behind = behind.trim_start();
    match behind.strip_prefix('"') {
        Some(text) => text.split('"').next().unwrap(),
        None => behind.split([',', '}', ']']).next().unwrap(),
    }
}

pub fn bytes(digits: &str) -> Vec<u8> {
    (0..digits.len())
        .step_by(2)
        .map(|at| u8::from_str_radix(&digits[at..at + 2], 16).unwrap())
        .collect()
}
