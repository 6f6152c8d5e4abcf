//! Links the static library of `exports`; EXPORTS_DIR is its folder. PLACE, a number, moves all code by so many times 16 bytes.
fn main() {
    println!("cargo:rerun-if-env-changed=PLACE");
    let place = std::env::var("PLACE").map_or(0, |p| p.parse::<u32>().expect("PLACE: a number"));
    println!("cargo:rustc-env=PLACE_BYTES={}", 16 * place);
    println!("cargo:rerun-if-env-changed=EXPORTS_DIR");
    let folder = std::env::var("EXPORTS_DIR").expect("EXPORTS_DIR: the folder of libexports.a; oracle/compare sets it");
    println!("cargo:rerun-if-changed={folder}/libexports.a");
    println!("cargo:rustc-link-search=native={folder}");
    println!("cargo:rustc-link-lib=static=exports");
}
