// Links the static library that `tools/build ffi` writes at the root of the repository.
fn main() {
    let folder = concat!(env!("CARGO_MANIFEST_DIR"), "/../../target/staticlib");
    println!("cargo:rustc-link-search=native={folder}");
    println!("cargo:rustc-link-lib=static=ffi");
    println!("cargo:rerun-if-changed={folder}/libffi.a");
}
