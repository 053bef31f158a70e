//! Writes the modules under which the Rust that is ported is compiled, unchanged, from where it stands,
//! and links the archive of `calls_play`.
//!
//! It stands in the folder that RAVEN_SRC names, or else in ../shared/docs/src/crates/raven-engine/src
//! as seen from the repository's root. The archive is libcalls.a in the folder that WELDERPEONY_LIB
//! names, or else in target/staticlib: `rt lib` in crates/calls_c makes it as out/libcalls_c.a, and it is
//! copied there under its own name. Without it all is built but what compares and measures.

use std::path::{Path, PathBuf};
use std::{env, fs};

const GLUE: &str = r#"
#[allow(dead_code)]
pub mod capability {
    #[path = "SRC/capability/pipeline.rs"]
    mod pipeline;
    pub use pipeline::*;
}
#[allow(dead_code, unused_imports)]
pub mod pipeline {
    #[path = "SRC/pipeline/config.rs"]
    pub mod config;
    #[path = "SRC/pipeline/op.rs"]
    pub mod op;
    #[path = "SRC/pipeline/timeline.rs"]
    mod timeline;
    pub use config::*;
    pub use op::PipelineOp;
    pub mod ooo {
        #[path = "SRC/pipeline/ooo/registers.rs"]
        mod registers;
        #[path = "SRC/pipeline/ooo/scoreboard.rs"]
        mod scoreboard;
        pub use scoreboard::ScoreboardPipeline;
    }
}
"#;

fn main() {
    let home = PathBuf::from(env::var("CARGO_MANIFEST_DIR").unwrap());
    let folder = match env::var("RAVEN_SRC") {
        Ok(folder) => PathBuf::from(folder),
        Err(_) => home.join("../../shared/docs/src/crates/raven-engine/src"),
    };
    let folder = folder
        .canonicalize()
        .unwrap_or_else(|_| panic!("no Rust at {}: set RAVEN_SRC", folder.display()));
    let glue = GLUE.replace("SRC", folder.to_str().expect("a path in UTF-8"));
    let out = PathBuf::from(env::var("OUT_DIR").unwrap());
    fs::write(out.join("raven.rs"), glue).unwrap();
    link(&home);
    println!("cargo::rerun-if-env-changed=RAVEN_SRC");
    println!("cargo::rerun-if-changed={}", folder.display());
}

/// Sets `calls` where there is an archive to link.
fn link(home: &Path) {
    println!("cargo::rustc-check-cfg=cfg(calls)");
    println!("cargo::rerun-if-env-changed=WELDERPEONY_LIB");
    let folder = match env::var("WELDERPEONY_LIB") {
        Ok(folder) => PathBuf::from(folder),
        Err(_) => home.join("../target/staticlib"),
    };
    let archive = folder.join("libcalls.a");
    println!("cargo::rerun-if-changed={}", archive.display());
    if archive.exists() {
        println!("cargo::rustc-cfg=calls");
        println!("cargo::rustc-link-arg-bin=harness={}", archive.display());
    }
}
