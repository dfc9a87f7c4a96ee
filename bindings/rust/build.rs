//! Links the library's two archives from the folder in T1MMU_LIB, else from the repository's target/staticlib.
use std::env;
use std::path::PathBuf;

fn main() {
    println!("cargo:rerun-if-env-changed=T1MMU_LIB");
    let folder = match env::var_os("T1MMU_LIB") {
        Some(folder) => PathBuf::from(folder),
        None => PathBuf::from(env::var_os("CARGO_MANIFEST_DIR").expect("cargo sets it")).join("../../target/staticlib"),
    };
    println!("cargo:rustc-link-search=native={}", folder.display());
    for name in ["t1mmu", "t1mmu_miss"] {
        let archive = folder.join(format!("lib{name}.a"));
        if !archive.is_file() {
            println!("cargo:warning={} is not there: `bash examples/run.sh` builds it", archive.display());
        }
        println!("cargo:rerun-if-changed={}", archive.display());
        println!("cargo:rustc-link-lib=static={name}");
    }
}
