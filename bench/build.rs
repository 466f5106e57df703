// Links target/lib/libpigrozd.a (make lib), and SQLite's library from Debian's package, which has no libsqlite3.so without -dev.
fn main() {
    let here = std::env::var("CARGO_MANIFEST_DIR").unwrap();
    println!("cargo:rustc-link-search=native={here}/../target/lib");
    println!("cargo:rustc-link-lib=static=pigrozd");
    println!("cargo:rustc-link-arg=-l:libsqlite3.so.0");
    println!("cargo:rerun-if-changed={here}/../target/lib/libpigrozd.a");
}
