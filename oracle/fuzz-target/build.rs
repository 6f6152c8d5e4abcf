//! Links LLVM's libFuzzer, whose `main` leads; LIBFUZZER names its archive.
fn main() {
    println!("cargo:rerun-if-env-changed=LIBFUZZER");
    let archive = std::env::var("LIBFUZZER").expect("LIBFUZZER: libclang_rt.fuzzer's archive; oracle/fuzz sets it");
    println!("cargo:rustc-link-arg-bins={archive}");
    println!("cargo:rustc-link-arg-bins=-lstdc++");
}
