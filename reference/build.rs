//! Takes the sizes of c/planner.h, and links the proved planner where the environment variable PLANNER_LIBRARY names
//! its static library.

use std::{env, fs, path::Path};

const HEADER: &str = "../c/planner.h";
const SIZES: [&str; 8] = [
    "SHEET_LENGTH",
    "ROWS_LENGTH",
    "TEXT_LENGTH",
    "CONVERTED_LENGTH",
    "MOST_QUANTITIES",
    "MOST_STEPS",
    "STORED_STEPS",
    "SCALE",
];

fn main() {
    println!("cargo:rerun-if-changed={HEADER}");
    let header = fs::read_to_string(HEADER).expect("c/planner.h stands beside reference/");
    for name in SIZES.map(|name| format!("PLANNER_{name}")) {
        let define = format!("#define {name} INT64_C(");
        let size = header
            .lines()
            .find_map(|line| line.strip_prefix(&define)?.strip_suffix(')'));
        println!("cargo:rustc-env={name}={}", size.expect(&name));
    }

    println!("cargo:rerun-if-env-changed=PLANNER_LIBRARY");
    let library = match env::var("PLANNER_LIBRARY") {
        Ok(library) => library,
        Err(_) => return,
    };
    let path = Path::new(&library);
    let folder = path.parent().expect("PLANNER_LIBRARY has no folder");
    let name = path.file_stem().and_then(|stem| stem.to_str());
    let name = name.and_then(|stem| stem.strip_prefix("lib"));
    println!("cargo:rerun-if-changed={library}");
    println!("cargo:rustc-cfg=planner_linked");
    println!("cargo:rustc-link-search=native={}", folder.display());
    println!(
        "cargo:rustc-link-lib=static={}",
        name.expect("PLANNER_LIBRARY is not of the form libNAME.a")
    );
}
