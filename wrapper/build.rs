//! Tells the linker where libthinning.a is: in target/staticlib beside this folder, or in the folder that
//! `THINNING_LIB` names.

use std::env;
use std::path::{Path, PathBuf};

fn main() {
    println!("cargo::rerun-if-env-changed=THINNING_LIB");
    let folder = match env::var_os("THINNING_LIB") {
        Some(folder) => PathBuf::from(folder),
        None => {
            let here = env::var_os("CARGO_MANIFEST_DIR").expect("cargo names this folder");
            Path::new(&here).join("../target/staticlib")
        }
    };
    // A library that was made anew is linked anew.
    println!(
        "cargo::rerun-if-changed={}",
        folder.join("libthinning.a").display()
    );
    println!("cargo::rustc-link-search=native={}", folder.display());
    println!("cargo::rustc-link-lib=static=thinning");
}
