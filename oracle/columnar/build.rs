//! Lays the Rust's files out as a crate in the build folder: links to those of OPTIONAL_INDEX_RUST, and the one file that is missing.
use std::path::{Path, PathBuf};
use std::{env, fs};

const BLOCKS: &str = "mod dense;
mod sparse;
pub use dense::{DENSE_BLOCK_NUM_BYTES, DenseBlock, DenseBlockCodec};
pub use sparse::{SparseBlock, SparseBlockCodec};
";

fn main() {
    println!("cargo:rerun-if-env-changed=OPTIONAL_INDEX_RUST");
    let beside = Path::new(env!("CARGO_MANIFEST_DIR")).join("../../../shared/docs/src/src");
    let rust = env::var_os("OPTIONAL_INDEX_RUST").map_or(beside, PathBuf::from);
    let rust = fs::canonicalize(&rust).unwrap_or_else(|e| panic!("the Rust is not at {}: {e}; OPTIONAL_INDEX_RUST says where", rust.display()));
    let out = PathBuf::from(env::var_os("OUT_DIR").unwrap()).join("rust");
    let _ = fs::remove_dir_all(&out);
    let index = "column_index/optional_index";
    fs::create_dir_all(out.join(index).join("set_block")).unwrap();
    for file in ["iterable.rs", "mod.rs", "set.rs", "set_block/dense.rs", "set_block/sparse.rs"] {
        let file = if file == "iterable.rs" { file.to_string() } else { format!("{index}/{file}") };
        println!("cargo:rerun-if-changed={}", rust.join(&file).display());
        std::os::unix::fs::symlink(rust.join(&file), out.join(&file)).unwrap();
    }
    fs::write(out.join(index).join("set_block/mod.rs"), BLOCKS).unwrap();
    let root = format!(
        "#[path = {:?}]\nmod iterable;\npub mod column_index {{\n    #[path = {:?}]\n    pub mod optional_index;\n}}\n",
        out.join("iterable.rs"),
        out.join(index).join("mod.rs")
    );
    fs::write(out.join("root.rs"), root).unwrap();
}
