// Says where the library's static archives are: those of `route_bench`, `fold_bench`, `gcd_bench`, `pack_bench`, `retile_bench` and `table_bench`, which
// `bench/run` makes, and those that `bench/before` makes.
fn main() {
    let root = std::path::Path::new(env!("CARGO_MANIFEST_DIR")).parent().unwrap();
    println!("cargo:rustc-link-search=native={}", root.join("target/staticlib").display());
    for name in ["route_bench", "fold_bench", "gcd_bench", "pack_bench", "retile_bench", "table_bench", "fold_before", "gcd_before"] {
        println!("cargo:rerun-if-changed={}", root.join(format!("target/staticlib/lib{name}.a")).display());
    }
}
