//! The two peers; lumintayag-sys links the reader.

fn main() {
    println!("cargo:rustc-link-lib=expat");
    println!("cargo:rustc-link-lib=xml2");
}
