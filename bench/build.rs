//! With the features `proved-route`, `proved` and `before`: links the objects that
//! `run` has put into the directory named by `PROVED_DIR`.

use std::env;

fn main() {
    println!("cargo:rerun-if-env-changed=PROVED_DIR");
    link_if("CARGO_FEATURE_PROVED_ROUTE", "route.o");
    link_if("CARGO_FEATURE_PROVED", "plan.o");
    link_if("CARGO_FEATURE_BEFORE", "before_route.o");
    link_if("CARGO_FEATURE_BEFORE", "before_plan.o");
}

fn link_if(feature: &str, object: &str) {
    if env::var_os(feature).is_some() {
        let directory = env::var("PROVED_DIR").expect("`run` sets PROVED_DIR");
        println!("cargo:rerun-if-changed={directory}/{object}");
        println!("cargo:rustc-link-arg={directory}/{object}");
    }
}
