// Lays out the four bought files (byte for byte, from bought/) with the stand-ins as the module tree
// they expect, in OUT_DIR. The only addition: `src/tlb_peek.rs` is appended after the
// last byte of tlb.rs, because `age_counter` and `clock_hands` are private to that
// module. Nothing of the bought text is altered or removed; the build fails if it would be.
use std::{env, fs, path::Path};

fn put(to: &Path, from: &str, after: Option<&str>) {
    let bought = fs::read(from).unwrap();
    let mut text = bought.clone();
    if let Some(a) = after {
        text.extend(fs::read(a).unwrap());
        println!("cargo:rerun-if-changed={a}");
    }
    assert!(text.starts_with(&bought));
    fs::write(to, text).unwrap();
    println!("cargo:rerun-if-changed={from}");
}

fn main() {
    let out = env::var("OUT_DIR").unwrap();
    let falcon = Path::new(&out).join("falcon");
    let mmu = falcon.join("mmu");
    fs::create_dir_all(&mmu).unwrap();
    let src = "bought/crates/raven-engine/src/architectures/riscv32/falcon";
    put(&mmu.join("mod.rs"), &format!("{src}/mmu/mod.rs"), None);
    put(&mmu.join("tlb.rs"), &format!("{src}/mmu/tlb.rs"), Some("src/tlb_peek.rs"));
    put(&mmu.join("walker.rs"), &format!("{src}/mmu/walker.rs"), None);
    put(&falcon.join("memory.rs"), &format!("{src}/memory.rs"), None);
    put(&mmu.join("satp.rs"), "standin/satp.rs", None);
    put(&mmu.join("capability.rs"), "standin/capability.rs", None);
    put(&falcon.join("cache.rs"), "standin/cache.rs", None);
    put(&falcon.join("errors.rs"), "standin/errors.rs", None);
    put(&falcon.join("mod.rs"), "standin/falcon_mod.rs", None);
    fs::write(Path::new(&out).join("root.rs"), "pub mod falcon;\n").unwrap();
    println!("cargo:rerun-if-changed=build.rs");
}
