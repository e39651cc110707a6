//! Each public type and function has an example that runs, and `unsafe` stands in one file.

use std::fs;
use std::path::Path;

/// The files of the crate, by name.
fn sources() -> Vec<(String, String)> {
    let folder = Path::new(env!("CARGO_MANIFEST_DIR")).join("src");
    let files = fs::read_dir(folder).unwrap().map(|entry| entry.unwrap().path());
    files.map(|path| (path.file_name().unwrap().to_str().unwrap().into(), fs::read_to_string(path).unwrap())).collect()
}

/// The lines that declare a public type or function, with whether the docs above have an example.
fn declared(text: &str) -> Vec<(String, bool)> {
    let (mut found, mut has_example) = (Vec::new(), false);
    for line in text.lines().map(str::trim_start) {
        if ["pub fn ", "pub struct ", "pub enum "].iter().any(|begin| line.starts_with(begin)) {
            found.push((line.into(), has_example));
        }
        let is_above = line.starts_with("///") || line.starts_with("#[");
        has_example = is_above && (has_example || line == "/// ```");
    }
    found
}

#[test]
fn each_public_item_has_an_example() {
    let mut count = 0;
    // What sys.rs has is not public outside the crate.
    for (name, text) in sources().into_iter().filter(|(name, _)| name != "sys.rs") {
        for (line, has_example) in declared(&text) {
            assert!(has_example, "{name}: no example above `{line}`");
            count += 1;
        }
    }
    assert!(count > 40, "{count} public items were found");
}

#[test]
fn unsafe_stands_in_one_file_and_each_has_its_reason() {
    for (name, text) in sources() {
        let lines: Vec<&str> = text.lines().collect();
        for (number, line) in lines.iter().enumerate().filter(|(_, line)| line.contains("unsafe {")) {
            assert_eq!(name, "sys.rs", "line {number}: {line}");
            let above = &lines[number.saturating_sub(2)..number];
            assert!(above.iter().any(|it| it.contains("// SAFETY:")), "{name}: no reason above `{line}`");
        }
    }
}
