//! Links the calls' object file and the proved library of the exported calls, which `../run` names.
fn main() {
    let object = std::env::var("CALLS_OBJECT").expect("CALLS_OBJECT: the calls' object file");
    let library =
        std::env::var("CALLS_LIBRARY").expect("CALLS_LIBRARY: the folder of libhongsathep.a");
    println!("cargo:rustc-link-arg={object}");
    println!("cargo:rustc-link-search=native={library}");
    println!("cargo:rustc-link-lib=static=hongsathep");
    println!("cargo:rerun-if-env-changed=CALLS_OBJECT");
    println!("cargo:rerun-if-env-changed=CALLS_LIBRARY");
    println!("cargo:rerun-if-changed={object}");
    println!("cargo:rerun-if-changed={library}/libhongsathep.a");
}
