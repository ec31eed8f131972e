//! All tests of the second program that are not beside its sources, in one program: for each service in a folder of its
//! name, and what explains and what costs.

mod answer;
mod clearance;
mod conversion;
mod cost;
mod explain;

use reference::library::LINKED;
use std::path::Path;
use std::{env, fs};

#[test]
fn the_proved_planner_is_linked_where_its_library_is_named() {
    assert_eq!(LINKED, env::var_os("PLANNER_LIBRARY").is_some());
}

/// The name of the module that a file or a folder is.
fn module(path: &Path) -> String {
    path.file_stem().unwrap().to_string_lossy().into_owned()
}

/// That every file of a folder but its own is a module of it, and so for every folder within.
fn hold_every_file(folder: &Path, own: &str) {
    let text = fs::read_to_string(folder.join(own)).unwrap();
    for file in fs::read_dir(folder).unwrap() {
        let path = file.unwrap().path();
        if path.is_dir() {
            hold_every_file(&path, "mod.rs");
        }
        let line = format!("mod {};", module(&path));
        let named = text.lines().any(|each| each == line);
        assert!(named || path.ends_with(own), "{}", path.display());
    }
}

/// A file that no module names would not be run.
#[test]
fn every_file_is_run() {
    let folder = Path::new(env!("CARGO_MANIFEST_DIR")).join("tests");
    hold_every_file(&folder, "main.rs");
}
