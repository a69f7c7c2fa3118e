// Links the proved archive, ../target/staticlib/librig.a seen from this manifest. With the feature
// `against`, links the copies of it and of an older one that checker/benchmark makes.

use std::env;
use std::path::PathBuf;

fn main() {
    println!("cargo:rerun-if-changed=build.rs");
    if env::var_os("CARGO_FEATURE_AGAINST").is_some() {
        link("../target/against", "rig");
        link("../target/against", "rig_before");
    } else {
        link("../target/staticlib", "rig");
    }
}

/// Links the archive lib`name`.a of a directory that is seen from the manifest.
fn link(directory: &str, name: &str) {
    let manifest = env::var_os("CARGO_MANIFEST_DIR").expect("cargo names the manifest's directory");
    let directory = PathBuf::from(manifest).join(directory);
    let archive = directory.join(format!("lib{name}.a"));
    println!("cargo:rustc-link-search=native={}", directory.display());
    println!("cargo:rustc-link-lib=static={name}");
    println!("cargo:rerun-if-changed={}", archive.display());
}
