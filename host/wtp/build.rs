//! Says where the proved library lies: scripts/library.sh leaves it in the repository's target/staticlib.

fn main() {
    let package = env!("CARGO_MANIFEST_DIR");
    println!("cargo:rustc-link-search=native={package}/../../target/staticlib");
    println!("cargo:rerun-if-changed={package}/../../target/staticlib/libwtp.a");
}
