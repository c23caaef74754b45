//! Writes the columns of docs/LAYOUT.md as constants, for layout.rs.
//! FG_LIB names the folder of the archives of runtime, records, trace and judge. With FG_LIB=plain the calls are those of the
//! crate `plain` (`cfg(over_plain)`). Without it the test runs against a stand-in made of the model itself (`cfg(self_test)`), which
//! tests the test.

use numbers::document::Document;
use std::path::Path;

fn main() {
    let document = Document::read().unwrap_or_else(|what| panic!("{what}"));
    let folder = std::env::var("OUT_DIR").expect("cargo names the folder");
    std::fs::write(Path::new(&folder).join("columns.rs"), columns(&document)).expect("the folder is cargo's own");
    println!("cargo:rerun-if-env-changed=FG_LIB");
    match std::env::var("FG_LIB") {
        Ok(word) if word == "plain" => println!("cargo:rustc-cfg=over_plain"),
        Ok(folder) if !folder.is_empty() => link(&folder),
        _ => println!("cargo:rustc-cfg=self_test"),
    }
}

/// The number of each column, the size of each, and the sum of the sizes.
fn columns(document: &Document) -> String {
    let mut text = String::new();
    for row in document.rows() {
        text += &format!("pub const {}: usize = {};\n", row.name, row.number);
    }
    text + &format!(
        "pub const SIZES: [Amount; REST] = {:?};\npub const WORDS: Amount = {:?};\n",
        document.sizes(),
        document.words
    )
}

/// Links the archives.
fn link(folder: &str) {
    for library in ["runtime", "records", "trace", "judge"] {
        let archive = format!("{folder}/lib{library}.a");
        println!("cargo:rerun-if-changed={archive}");
        println!("cargo:rustc-link-arg-bins={archive}");
    }
}
