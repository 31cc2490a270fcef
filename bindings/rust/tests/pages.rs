//! The signatures that docs/INTERFACE.md gives are those of the source.

use std::fs;
use std::path::Path;

#[test]
fn signatures_of_the_page_stand_in_the_source() {
    let here = Path::new(env!("CARGO_MANIFEST_DIR"));
    let mut source = String::new();
    for entry in fs::read_dir(here.join("src")).unwrap() {
        source += &fs::read_to_string(entry.unwrap().path()).unwrap();
    }
    let page = fs::read_to_string(here.join("../../docs/INTERFACE.md")).unwrap();
    let given: Vec<&str> = page
        .lines()
        .map(str::trim)
        .filter(|line| line.starts_with("pub fn "))
        .collect();
    for signature in &given {
        assert!(
            source.contains(&format!("\n{signature} {{\n")),
            "docs/INTERFACE.md: {signature}"
        );
    }
    let methods: Vec<&str> = page
        .lines()
        .filter_map(|line| line.strip_prefix("    "))
        .filter(|line| line.starts_with(char::is_uppercase) && line.contains("::"))
        .collect();
    for method in &methods {
        let (_, signature) = method.split_once("::").unwrap();
        assert!(
            source.contains(&format!("\n    pub fn {signature} {{\n")),
            "docs/INTERFACE.md: {method}"
        );
    }
    let all = source
        .lines()
        .filter(|line| line.starts_with("    pub fn "))
        .count();
    assert_eq!(methods.len() + INSIDE_METHODS, all);
    // And the page has every call that is not a method.
    let calls = source
        .lines()
        .filter(|line| line.starts_with("pub fn "))
        .count();
    assert_eq!(given.len() + INSIDE, calls);
}

/// `held`, `length` and `exact` of the module `text`, which is private.
const INSIDE: usize = 3;

/// `add` of its `Text`.
const INSIDE_METHODS: usize = 1;
