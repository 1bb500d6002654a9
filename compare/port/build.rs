//! Finds the port's archive: in the repository's own `crates/mtb_c/out`, or in the
//! folder that `MTB_STATICLIB` names.

use std::env;
use std::path::PathBuf;

fn main() {
    println!("cargo::rerun-if-env-changed=MTB_STATICLIB");
    let named = env::var_os("MTB_STATICLIB").filter(|named| !named.is_empty());
    let folder = match named {
        Some(named) => PathBuf::from(named),
        None => {
            let here = env::var_os("CARGO_MANIFEST_DIR").expect("cargo sets it");
            PathBuf::from(here).join("../../crates/mtb_c/out")
        }
    };

    let archive = folder.join("libmtb_c.a");
    println!("cargo::rerun-if-changed={}", archive.display());
    if !archive.is_file() {
        println!(
            "cargo::error=there is no {}: make it with `rt lib` in \
             crates/mtb_c, or name its folder in MTB_STATICLIB",
            archive.display()
        );
    }
    println!("cargo::rustc-link-search=native={}", folder.display());
    println!("cargo::rustc-link-lib=static=mtb_c");
}
