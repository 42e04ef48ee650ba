//! Links target/staticlib/libbirdcleft.a, which tests/host/library makes.

fn main() {
    let folder = concat!(env!("CARGO_MANIFEST_DIR"), "/../target/staticlib");
    println!("cargo:rustc-link-search=native={folder}");
    println!("cargo:rustc-link-lib=static=birdcleft");
    println!("cargo:rerun-if-changed={folder}/libbirdcleft.a");
}
