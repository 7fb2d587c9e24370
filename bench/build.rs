//! Links what the features name.

use std::env;
use std::path::Path;
use std::process::Command;

/// Compiles `src/library.c` with the library's header and links both.
fn link_library() {
    let folder = env::var("OUT_DIR").unwrap();
    let object = format!("{folder}/library.o");
    let archive = format!("{folder}/libbench_c.a");
    run(Command::new("cc").args(["-O3", "-Wall", "-I../include", "-c", "src/library.c", "-o", &object]));
    run(Command::new("ar").args(["crs", &archive, &object]));
    let root = Path::new("..").canonicalize().unwrap();
    println!("cargo::rustc-link-search=native={folder}");
    println!("cargo::rustc-link-lib=static=bench_c");
    for name in ["c_api", "c_serve"] {
        println!("cargo::rustc-link-search=native={}/crates/{name}/out", root.display());
        println!("cargo::rustc-link-lib=static={name}");
        println!("cargo::rerun-if-changed=../crates/{name}/out/lib{name}.a");
    }
    for file in ["src/library.c", "../include/store.h"] {
        println!("cargo::rerun-if-changed={file}");
    }
}

fn run(command: &mut Command) {
    let done = command.status().expect("a C compiler");
    assert!(done.success(), "{command:?}");
}

fn has(feature: &str) -> bool {
    env::var(format!("CARGO_FEATURE_{feature}")).is_ok()
}

fn main() {
    println!("cargo::rerun-if-changed=build.rs");
    if has("LIBRARY") {
        link_library();
    }
    for (feature, name) in [("SQLITE", "sqlite3"), ("LMDB", "lmdb"), ("PMEMOBJ", "pmemobj"), ("PMEMLOG", "pmemlog")] {
        if has(feature) {
            println!("cargo::rustc-link-lib={name}");
        }
    }
    if has("BYTES") {
        for name in ["memcpy", "memmove", "memset"] {
            println!("cargo::rustc-link-arg-bin=count=-Wl,--wrap={name}");
        }
    }
}
