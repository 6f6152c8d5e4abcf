fn main() {
    let path = source::copy(&["recovery"]).join("recovery.rs");
    std::fs::write(path.with_file_name("root.rs"), format!("#[path = {path:?}]\npub mod recovery;")).expect("write into OUT_DIR");
}
