//! The kept sheets.

use std::path::PathBuf;

/// Where the kept sheets lie.
pub fn folder() -> PathBuf {
    PathBuf::from(concat!(env!("CARGO_MANIFEST_DIR"), "/../corpus"))
}

/// All kept sheets with their names, by name.
pub fn load() -> Vec<(String, Vec<u8>)> {
    let mut sheets = vec![];
    let entries = std::fs::read_dir(folder()).into_iter().flatten().flatten();
    for path in entries
        .map(|e| e.path())
        .filter(|p| p.extension().is_some_and(|e| e == "sheet"))
    {
        let name = path.file_stem().unwrap().to_string_lossy().into_owned();
        sheets.push((name, std::fs::read(&path).expect("a readable sheet")));
    }
    sheets.sort();
    sheets
}

/// The kept sheet of a name.
pub fn kept(name: &str) -> Vec<u8> {
    let found = load().into_iter().find(|(kept, _)| kept == name);
    found.expect(name).1
}
