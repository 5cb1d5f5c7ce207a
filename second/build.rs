//! Links libdriver.a for the feature `driver`. The variable SKELETON_LIBRARY
//! names its folder, which counts from here if it is no full path.

use std::env;
use std::path::Path;

fn main() {
    println!("cargo:rerun-if-changed=build.rs");
    println!("cargo:rerun-if-env-changed=SKELETON_LIBRARY");
    if env::var_os("CARGO_FEATURE_DRIVER").is_none() {
        return;
    }
    let folder = env::var("SKELETON_LIBRARY").unwrap_or_else(|_| "../target/staticlib".to_string());
    let folder = Path::new(env!("CARGO_MANIFEST_DIR")).join(folder);
    println!("cargo:rerun-if-changed={}", folder.join("libdriver.a").display());
    println!("cargo:rustc-link-search=native={}", folder.display());
    println!("cargo:rustc-link-lib=static=driver");
}
