//! Links the archive `libhurdlesong_c.a`, which is made by `scripts/archive.sh`: from the folder
//! named by HURDLESONG_ARCHIVE, else from `target/staticlib` beside this package.

use std::env;
use std::fs;
use std::path::PathBuf;
use std::process;

fn main() {
    println!("cargo:rerun-if-env-changed=HURDLESONG_ARCHIVE");
    let folder = match env::var_os("HURDLESONG_ARCHIVE") {
        Some(folder) => PathBuf::from(folder),
        None => PathBuf::from(env::var_os("CARGO_MANIFEST_DIR").unwrap_or_default())
            .join("../target/staticlib"),
    };
    let archive = folder.join("libhurdlesong_c.a");
    println!("cargo:rerun-if-changed={}", archive.display());
    // The linker runs in another folder than this script, so the path has to be a whole one.
    match fs::canonicalize(&folder) {
        Ok(whole) if archive.is_file() => {
            println!("cargo:rustc-link-search=native={}", whole.display());
            println!("cargo:rustc-link-lib=static=hurdlesong_c");
        }
        _ => {
            eprintln!(
                "no archive {}: run `scripts/archive.sh` first, or name its folder by \
                 HURDLESONG_ARCHIVE",
                archive.display()
            );
            process::exit(1);
        }
    }
}
