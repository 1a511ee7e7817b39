//! Finds the archives of the proved library, the search and the feed reader, and links them.
use std::path::{Path, PathBuf};
use std::{env, process};

const LIBRARIES: [&str; 2] = ["kiosk_c", "gtfs_c"];

/// Where `library.sh` makes the archives.
fn usual_folder() -> PathBuf {
    let own = env::var("CARGO_MANIFEST_DIR").expect("cargo sets it");
    Path::new(&own).join("../target/staticlib")
}

fn main() {
    let named = env::var_os("KIOSK_LIB_DIR").filter(|name| !name.is_empty());
    let folder = named.map_or_else(usual_folder, PathBuf::from);
    println!("cargo:rerun-if-env-changed=KIOSK_LIB_DIR");
    println!("cargo:rustc-link-search=native={}", folder.display());
    for library in LIBRARIES {
        let archive = folder.join(format!("lib{library}.a"));
        println!("cargo:rerun-if-changed={}", archive.display());
        if !archive.is_file() {
            // said here, since the linker's own words name neither the variable nor the script
            eprintln!("there is no {}", archive.display());
            eprintln!("make it with library.sh, or set KIOSK_LIB_DIR to the full path of a folder with libkiosk_c.a and libgtfs_c.a");
            process::exit(1);
        }
        println!("cargo:rustc-link-lib=static={library}");
    }
}
