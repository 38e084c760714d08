//! Links the static libraries of the measured calls, which `bench/run` builds, and the toolchain's
//! three allocation functions. In the build that counts allocations, `src/memory.rs` has them.

fn main() {
    let crates = std::env::var("OURS").expect("OURS: the folder of the crates of the measured calls");
    println!("cargo:rerun-if-env-changed=OURS");
    for name in ["bench_calls", "bench_more"] {
        let folder = format!("{crates}/{name}/out");
        println!("cargo:rerun-if-changed={folder}/lib{name}.a");
        println!("cargo:rustc-link-search=native={folder}");
        println!("cargo:rustc-link-lib=static={name}");
    }
    if std::env::var_os("CARGO_FEATURE_COUNT").is_none() {
        let heap = std::env::var("HEAP").expect("HEAP: the folder of liblibc_c.a");
        println!("cargo:rustc-link-search=native={heap}");
        println!("cargo:rustc-link-lib=static=libc_c");
    }
}
