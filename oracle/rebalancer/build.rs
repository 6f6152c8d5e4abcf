use std::fmt::Write;

const MODULES: [&str; 5] = ["recovery", "audit", "reconcile", "diff", "clock_skew"];

fn main() {
    let out = source::copy(&MODULES);
    let mut root = String::new();
    for module in MODULES {
        let path = out.join(format!("{module}.rs"));
        writeln!(root, "#[path = {path:?}]\npub mod {module};").expect("a String takes it");
    }
    std::fs::write(out.join("root.rs"), root).expect("write into OUT_DIR");
}
