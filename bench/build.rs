// Links the static library that `tools/build timed` writes at the root of the repository.
fn main() {
    let folder = concat!(env!("CARGO_MANIFEST_DIR"), "/../target/staticlib");
    println!("cargo:rustc-link-search=native={folder}");
    println!("cargo:rustc-link-lib=static=timed");
    println!("cargo:rerun-if-changed={folder}/libtimed.a");
}
