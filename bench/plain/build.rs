//! The proved library is linked anew whenever it has changed.

fn main() {
    println!("cargo::rerun-if-changed=build.rs");
    println!("cargo::rerun-if-changed=../../crates/bench_calls/out/libbench_calls.a");
}
