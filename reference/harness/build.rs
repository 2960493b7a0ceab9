//! Links `libportal.a` from the folder that PORTAL_LIB_DIR names. Without it
//! everything builds, and a program that is asked for the linked portal says
//! that there is none.

fn main() {
    println!("cargo:rerun-if-env-changed=PORTAL_LIB_DIR");
    println!("cargo::rustc-check-cfg=cfg(portal_linked)");
    let Ok(folder) = std::env::var("PORTAL_LIB_DIR") else {
        return;
    };
    println!("cargo:rerun-if-changed={folder}/libportal.a");
    println!("cargo:rustc-link-search=native={folder}");
    println!("cargo:rustc-link-lib=static=portal");
    println!("cargo:rustc-cfg=portal_linked");
}
