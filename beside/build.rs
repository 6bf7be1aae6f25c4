//! Links the planner's calls for C, which `compare` builds.

fn main() {
    let folder = concat!(env!("CARGO_MANIFEST_DIR"), "/../crates/planner_c/out");
    println!("cargo::rustc-link-search=native={folder}");
    println!("cargo::rustc-link-lib=static=planner_c");
    println!("cargo::rerun-if-changed={folder}/libplanner_c.a");
}
