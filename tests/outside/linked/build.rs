//! Finds `libsurvey.a` in `SURVEY_LIB_DIR`.

use std::env;
use std::fs;

fn main() {
    println!("cargo:rerun-if-env-changed=SURVEY_LIB_DIR");
    let named = env::var("SURVEY_LIB_DIR").expect("SURVEY_LIB_DIR names the place of libsurvey.a");
    let place = fs::canonicalize(&named).expect("SURVEY_LIB_DIR is a directory");
    println!("cargo:rustc-link-search=native={}", place.display());
    println!("cargo:rerun-if-changed={}/libsurvey.a", place.display());
}
