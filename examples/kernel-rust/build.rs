//! Links the kernel where it is loaded. For a target without an operating system rustc calls a linker, and else a
//! compiler that does.
fn main() {
    let script = concat!(env!("CARGO_MANIFEST_DIR"), "/link.ld");
    println!("cargo::rerun-if-changed={script}");
    let words = ["-nostdlib", "-static", "--gc-sections", "--build-id=none", "-n", "-T", script];
    let is_linker = std::env::var("CARGO_CFG_TARGET_OS").is_ok_and(|system| system == "none");
    for word in words {
        match word {
            "-nostdlib" | "-static" if !is_linker => println!("cargo::rustc-link-arg-bins={word}"),
            _ if is_linker => println!("cargo::rustc-link-arg-bins={word}"),
            _ => println!("cargo::rustc-link-arg-bins=-Wl,{word}"),
        }
    }
    if !is_linker {
        println!("cargo::rustc-link-arg-bins=-no-pie");
        println!("cargo::rustc-link-arg-bins=-nostartfiles");
    }
}
