//! Links the static library that `rt lib` made.
use std::path::Path;

fn main() {
    let library = Path::new(env!("CARGO_MANIFEST_DIR")).join("../crates/bench_states/out");
    println!("cargo:rustc-link-search=native={}", library.display());
    println!("cargo:rustc-link-lib=static=bench_states");
    println!(
        "cargo:rerun-if-changed={}",
        library.join("libbench_states.a").display()
    );
}
