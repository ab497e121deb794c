//! Links GEOS, which `run` makes sure is there.

fn main() {
    println!("cargo:rustc-link-lib=geos_c");
}
