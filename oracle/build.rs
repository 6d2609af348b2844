//! With the feature `chunk`, links this library's archive.
fn main() {
    println!("cargo:rerun-if-changed=../target/staticlib/libchunk.a");
    if std::env::var_os("CARGO_FEATURE_CHUNK").is_some() {
        let dir = std::env::var("CARGO_MANIFEST_DIR").unwrap();
        println!("cargo:rustc-link-search=native={dir}/../target/staticlib");
        println!("cargo:rustc-link-lib=static=chunk");
    }
}
