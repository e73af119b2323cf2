//! Links the proved archive: of the door, for monitors, and of the book, for `zaulinte::book`. The folder that
//! ZAULINTE_LIB names has libzaulinte.a, or libdoor_c.a and libbook_c.a, as `rt lib` makes them. Without ZAULINTE_LIB it
//! is the folder in `lib` for the target; a target without an operating system takes the archive for a kernel.
use std::env::var;
use std::path::{Path, PathBuf};

fn kept() -> PathBuf {
    let from_cargo = |name: &str| var(name).expect("cargo sets it");
    let (processor, system) = (from_cargo("CARGO_CFG_TARGET_ARCH"), from_cargo("CARGO_CFG_TARGET_OS"));
    let system = if system == "none" { "kernel" } else { &system };
    Path::new(&from_cargo("CARGO_MANIFEST_DIR")).join("lib").join(format!("{processor}-{system}"))
}

fn main() {
    println!("cargo:rerun-if-env-changed=ZAULINTE_LIB");
    let folder = var("ZAULINTE_LIB").map_or_else(|_| kept(), PathBuf::from);
    println!("cargo:rustc-link-search=native={}", folder.display());
    let is_one = !folder.join("libdoor_c.a").exists();
    let names: &[&str] = if is_one { &["zaulinte"] } else { &["door_c", "book_c"] };
    for name in names {
        let archive = folder.join(format!("lib{name}.a"));
        if !archive.exists() {
            println!("cargo:warning=no {}: name the folder that has it by ZAULINTE_LIB", archive.display());
        }
        println!("cargo:rustc-link-lib=static={name}");
        println!("cargo:rerun-if-changed={}", archive.display());
    }
}
