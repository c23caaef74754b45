//! FG_LIB names the folder of the archives of `runtime` and `searches`. Without it, and with FG_LIB=plain, plain Rust is measured against itself
//! (`cfg(self_test)`), which tests the measurement: each ratio must be close to 1.

fn main() {
    println!("cargo:rerun-if-env-changed=FG_LIB");
    match std::env::var("FG_LIB") {
        Ok(folder) if !folder.is_empty() && folder != "plain" => {
            for crate_name in ["runtime", "searches"] {
                let archive = format!("{folder}/lib{crate_name}.a");
                println!("cargo:rerun-if-changed={archive}");
                println!("cargo:rustc-link-arg-bins={archive}");
            }
        }
        _ => println!("cargo:rustc-cfg=self_test"),
    }
}
