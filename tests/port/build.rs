// Links the proved archives that tools/archive makes.
fn main() {
    let root = std::path::Path::new(env!("CARGO_MANIFEST_DIR")).join("../../target/staticlib");
    println!("cargo::rustc-link-search=native={}", root.display());
    for archive in ["libbridge.a", "libbridge_write.a", "libfirmware.a"] {
        println!("cargo::rerun-if-changed={}", root.join(archive).display());
    }
}
