// The static library lies where `tools/build.sh ion` writes it, or in the folder that ION_LIB names.
fn main() {
    let here = std::env::var("CARGO_MANIFEST_DIR").expect("cargo sets it");
    let folder = std::env::var("ION_LIB").unwrap_or(format!("{here}/../../target/staticlib"));
    println!("cargo:rerun-if-env-changed=ION_LIB");
    println!("cargo:rerun-if-changed={folder}/libion.a");
    if !std::path::Path::new(&folder).join("libion.a").exists() {
        eprintln!("there is no libion.a in {folder}: run `tools/build.sh ion` at the repository's root first, or name its folder in ION_LIB");
        std::process::exit(1);
    }
    println!("cargo:rustc-link-search=native={folder}");
    println!("cargo:rustc-link-lib=static=ion");
}
