// Links the static library that tests/library builds; OLA_LIB names its folder.
fn main() {
    let folder = std::env::var("OLA_LIB").expect("OLA_LIB: the folder of libola_c.a");
    println!("cargo:rustc-link-search=native={folder}");
    println!("cargo:rustc-link-lib=static=ola_c");
    println!("cargo:rerun-if-changed={folder}/libola_c.a");
    println!("cargo:rerun-if-env-changed=OLA_LIB");
}
