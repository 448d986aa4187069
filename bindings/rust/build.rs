//! Links the archive: `JFFS2_LIB_DIR` names the folder of `libjffs2_c.a`; else it is in `lib/` here,
//! as in the crate of a release.
fn main() {
    println!("cargo:rerun-if-env-changed=JFFS2_LIB_DIR");
    let here = format!("{}/lib", env!("CARGO_MANIFEST_DIR"));
    let folder = std::env::var("JFFS2_LIB_DIR").unwrap_or(here);
    let archive = format!("{folder}/libjffs2_c.a");
    if !std::path::Path::new(&archive).is_file() {
        panic!("{archive} is not there: JFFS2_LIB_DIR is to name the folder of libjffs2_c.a");
    }
    println!("cargo:rustc-link-search=native={folder}");
    println!("cargo:rustc-link-lib=static=jffs2_c");
    println!("cargo:rerun-if-changed={archive}");
}
