//! Finds the archive: WHARFNETTLE_LIB names the folder that board/build made.

use std::env;
use std::path::Path;

fn main() {
    println!("cargo:rerun-if-env-changed=WHARFNETTLE_LIB");
    let Some(folder) = env::var_os("WHARFNETTLE_LIB") else {
        panic!(
            "WHARFNETTLE_LIB has to name the folder with libwharfnettle.a, which board/build makes"
        );
    };
    let folder = Path::new(&folder);
    let archive = folder.join("libwharfnettle.a");
    if !archive.is_file() {
        panic!("{} is not there: board/build makes it", archive.display());
    }
    println!("cargo:rerun-if-changed={}", archive.display());
    println!("cargo:rustc-link-search=native={}", folder.display());
    println!("cargo:rustc-link-lib=static=wharfnettle");
}
