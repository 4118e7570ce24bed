//! Links the proved program's archive, and only when the feature asks for it.

use std::env;

fn main() {
    println!("cargo:rerun-if-env-changed=NENDOKWE_LIB");
    if env::var_os("CARGO_FEATURE_OURS").is_none() {
        return;
    }
    let own = env::var("CARGO_MANIFEST_DIR").unwrap_or_default();
    let directory = env::var("NENDOKWE_LIB").unwrap_or(format!("{own}/../crates/nendokwe/out"));
    println!("cargo:rerun-if-changed={directory}/libnendokwe.a");
    println!("cargo:rustc-link-search=native={directory}");
    println!("cargo:rustc-link-lib=static=nendokwe");
}
