//! Says where the binding finds libhost.a: in the folder ZERADOK_LIB (absolute, or seen from this
//! crate's folder), without it in the project's own target folder.

use std::{env, path::PathBuf};

fn main() {
    println!("cargo:rerun-if-env-changed=ZERADOK_LIB");
    let here = PathBuf::from(env::var_os("CARGO_MANIFEST_DIR").expect("set by cargo"));
    let folder = env::var_os("ZERADOK_LIB").unwrap_or("../../target/staticlib".into());
    let folder = here.join(folder);
    let library = folder.join("libhost.a");
    println!("cargo:rerun-if-changed={}", library.display());
    assert!(library.is_file(), "{} is missing: build the library first", library.display());
    println!("cargo:rustc-link-search=native={}", folder.display());
}
