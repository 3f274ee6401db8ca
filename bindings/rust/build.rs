//! Tells where `libnova.a` lies: in the folder that `NOVA_LIBRARY` names, or where `tools/bindings` leaves it.

use std::env;
use std::path::Path;

fn main() {
    let own = env::var("CARGO_MANIFEST_DIR").expect("cargo names the folder of a package");
    let left = Path::new(&own).join("../../crates/nv_c/out");
    let folder = env::var("NOVA_LIBRARY").unwrap_or_else(|_| left.display().to_string());
    println!("cargo:rustc-link-search=native={}", folder);
    println!("cargo:rerun-if-changed={}/libnova.a", folder);
    println!("cargo:rerun-if-env-changed=NOVA_LIBRARY");
}
