// Links the proved library, which `rt lib` leaves in the out folder of its crate.
fn main() {
    let here = std::env::var("CARGO_MANIFEST_DIR").expect("cargo says where the crate is");
    let library = format!("{here}/../crates/panel/out");
    println!("cargo:rustc-link-search=native={library}");
    println!("cargo:rustc-link-lib=static=panel");
    println!("cargo:rerun-if-changed={library}/libpanel.a");
}
