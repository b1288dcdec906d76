// Links the proved archives that tools/archive makes of bridge, bridge_write and bench_port.
fn main() {
    let root = std::path::Path::new(env!("CARGO_MANIFEST_DIR")).join("../target/staticlib");
    println!("cargo::rustc-link-search=native={}", root.display());
    for name in ["libbridge.a", "libbridge_write.a", "libbench_port.a"] {
        println!("cargo::rerun-if-changed={}", root.join(name).display());
    }
}
