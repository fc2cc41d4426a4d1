//! The cfg `no_oracle` where the reference's text is absent: tests that need it are then ignored.

fn main() {
    println!("cargo:rerun-if-env-changed=DEP_LEGEND_ORACLE_PRESENT");
    println!("cargo:rustc-check-cfg=cfg(no_oracle)");
    if std::env::var("DEP_LEGEND_ORACLE_PRESENT").as_deref() != Ok("1") {
        println!("cargo:rustc-cfg=no_oracle");
    }
}
