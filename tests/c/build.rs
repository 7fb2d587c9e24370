//! Compiles `src/shim.c` with the header and links it and the library.

use std::env;
use std::path::Path;
use std::process::Command;

fn run(command: &mut Command) {
    let done = command.status().expect("a C compiler");
    assert!(done.success(), "{command:?}");
}

fn main() {
    let folder = env::var("OUT_DIR").unwrap();
    let (object, archive) = (format!("{folder}/shim.o"), format!("{folder}/libshim.a"));
    let warnings = ["-Wall", "-Wextra", "-Wpedantic", "-Wconversion", "-Wshadow", "-Werror"];
    let paths = ["-I../../include", "-c", "src/shim.c", "-o", &object];
    run(Command::new("cc").args(["-std=c11", "-O2"]).args(warnings).args(paths));
    run(Command::new("ar").args(["crs", &archive, &object]));
    println!("cargo::rustc-link-search=native={folder}");
    println!("cargo::rustc-link-lib=static=shim");
    for name in ["c_api", "c_serve"] {
        let library = format!("../../crates/{name}/out");
        println!("cargo::rustc-link-search=native={}", Path::new(&library).canonicalize().unwrap().display());
        println!("cargo::rustc-link-lib=static={name}");
        println!("cargo::rerun-if-changed={library}/lib{name}.a");
    }
    for file in ["build.rs", "src/shim.c", "../../include/store.h"] {
        println!("cargo::rerun-if-changed={file}");
    }
}
