//! Links `libgrebetallboy.a`, which `tools/staticlib` writes to `target/staticlib` at the top of the repository.
//! `GREBETALLBOY_LIB` names another folder that has it.

fn main() {
    let built = std::path::Path::new(env!("CARGO_MANIFEST_DIR")).join("../../target/staticlib");
    let folder = std::env::var_os("GREBETALLBOY_LIB").map_or(built, Into::into);
    let archive = folder.join("libgrebetallboy.a");
    println!("cargo:rerun-if-env-changed=GREBETALLBOY_LIB");
    println!("cargo:rerun-if-changed={}", archive.display());
    if !archive.exists() {
        eprintln!("{} is missing: run `tools/staticlib` at the top of the repository,", archive.display());
        eprintln!("or name the folder that has it in the environment: GREBETALLBOY_LIB=FOLDER");
        std::process::exit(1);
    }
    println!("cargo:rustc-link-search=native={}", folder.display());
    println!("cargo:rustc-link-lib=static=grebetallboy");
}
