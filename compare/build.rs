//! With the feature `linked` the program is linked with the object files in COMPARE_OBJECTS, separated by spaces.

fn main() {
    println!("cargo:rerun-if-changed=build.rs");
    println!("cargo:rerun-if-env-changed=COMPARE_OBJECTS");
    if std::env::var_os("CARGO_FEATURE_LINKED").is_none() {
        return;
    }
    let objects = std::env::var("COMPARE_OBJECTS").expect("COMPARE_OBJECTS names the object files to link");
    for object in objects.split_whitespace() {
        println!("cargo:rerun-if-changed={object}");
        println!("cargo:rustc-link-arg-bins={object}");
    }
}
