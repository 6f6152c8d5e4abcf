fn main() {
    let out = source::copy(&["lib", "error", "types"]);
    // lib.rs names a module `mock` that is not among the files and that nothing here uses.
    std::fs::write(out.join("mock.rs"), "").expect("write into OUT_DIR");
    let root = format!("#[path = {:?}]\nmod original;\n", out.join("lib.rs"));
    std::fs::write(out.join("root.rs"), root).expect("write into OUT_DIR");
}
