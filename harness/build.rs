// Tells the linker where `./meter library` and `./meter bench` leave the libraries: export, which the harness links, and bench, which the
// benchmark does.
fn main() {
    let root = std::env::var("CARGO_MANIFEST_DIR").unwrap();
    let libraries = format!("{root}/../target/staticlib");
    println!("cargo:rustc-link-search=native={libraries}");
    println!("cargo:rerun-if-changed={libraries}/libexport.a");
    println!("cargo:rerun-if-changed={libraries}/libbench.a");
}
