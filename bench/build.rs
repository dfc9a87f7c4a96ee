//! Links the plain C unit (PLAIN_LIB: the folder of libplain.a); the proved library comes with its Rust crate.
fn main() {
    let folder = std::env::var("PLAIN_LIB").unwrap_or_else(|_| panic!("PLAIN_LIB: bench/run.sh sets it"));
    println!("cargo:rustc-link-search=native={folder}");
    println!("cargo:rustc-link-lib=static=plain");
    println!("cargo:rerun-if-env-changed=PLAIN_LIB");
    println!("cargo:rerun-if-changed={folder}/libplain.a");
}
