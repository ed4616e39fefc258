//! Links the library of boards, and says so if it wasn't proved.
mod static_libraries;

fn main() {
    if !static_libraries::link(&["sm_c"]) {
        println!("cargo:rustc-env=DURKENZO_UNPROVED=1");
    }
}
