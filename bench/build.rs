fn main() {
    let own = std::path::Path::new(env!("CARGO_MANIFEST_DIR"))
        .parent()
        .unwrap()
        .join("crates/poxilme/out");
    // POXILME_LIB names the folder of another libpoxilme.a, to time an earlier one by the same program.
    let folder = std::env::var_os("POXILME_LIB").map_or(own, Into::into);
    println!("cargo:rustc-link-search=native={}", folder.display());
    println!("cargo:rustc-link-lib=static=poxilme");
    println!("cargo:rerun-if-env-changed=POXILME_LIB");
    println!(
        "cargo:rerun-if-changed={}",
        folder.join("libpoxilme.a").display()
    );
}
