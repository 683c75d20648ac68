//! Links the proved box with speed. BENCH_BOX_DIR names the folder that libbench_box.a stands in.
fn main() {
    println!("cargo:rerun-if-env-changed=BENCH_BOX_DIR");
    if let Ok(dir) = std::env::var("BENCH_BOX_DIR") {
        println!("cargo:rerun-if-changed={dir}/libbench_box.a");
        println!("cargo:rustc-link-arg-bin=speed={dir}/libbench_box.a");
    }
}
