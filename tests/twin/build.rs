//! Links the object of dist/zacpi.c, which TWIN_OBJECT names.
fn main() {
    let object = std::env::var("TWIN_OBJECT").expect("TWIN_OBJECT names an object");
    println!("cargo:rerun-if-env-changed=TWIN_OBJECT");
    println!("cargo:rerun-if-changed={object}");
    println!("cargo:rustc-link-arg={object}");
}
