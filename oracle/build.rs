//! Finds the original sources, and writes into OUT_DIR the `#[path]` lines by
//! which they are compiled from their place.

use std::env;
use std::fs;
use std::path::{Path, PathBuf};
use std::process::exit;

/// Generated file, and the modules that it declares.
const MODULES: [(&str, &[&str]); 3] = [
    ("root.rs", &["time.rs"]),
    (
        "rcc.rs",
        &[
            "rcc/clock.rs",
            "rcc/clock_config.rs",
            "rcc/clock_read.rs",
            "rcc/clock_lpsys.rs",
        ],
    ),
    ("pmu.rs", &["pmu/dvfs.rs"]),
];

const ALLOW: &str = "#[allow(dead_code, unused_imports, clippy::all)]";

fn main() {
    // A relative folder starts at the repository root.
    let repository = Path::new(&variable("CARGO_MANIFEST_DIR")).join("..");
    let folder = env::var("SIFLI_SRC").unwrap_or_else(|_| "../shared/docs/src".to_string());
    let sources = repository.join(folder).join("sifli-hal/src");
    let out = PathBuf::from(variable("OUT_DIR"));
    for (file, modules) in MODULES {
        let text: String = modules.iter().map(|m| declaration(&sources, m)).collect();
        if let Err(error) = fs::write(out.join(file), text) {
            fail(&format!("cannot write {file}: {error}"));
        }
    }
    println!("cargo::rerun-if-env-changed=SIFLI_SRC");
    println!("cargo::rerun-if-changed=build.rs");
    println!("cargo::rustc-check-cfg=cfg(feature, values(\"defmt\", \"time-driver-gptim1\"))");
}

/// `#[path = ..] pub mod ..;` for one source file.
fn declaration(sources: &Path, module: &str) -> String {
    let Ok(path) = sources.join(module).canonicalize() else {
        fail(&format!(
            "the original source sifli-hal/src/{module} is not there ({}); \
             set SIFLI_SRC to the folder that holds sifli-hal",
            sources.display()
        ))
    };
    println!("cargo::rerun-if-changed={}", path.display());
    let name = path.file_stem().unwrap_or_default().to_string_lossy();
    format!("{ALLOW}\n#[path = {path:?}]\npub mod {name};\n")
}

fn variable(name: &str) -> String {
    env::var(name).unwrap_or_else(|_| fail(&format!("{name} is not set; build with cargo")))
}

fn fail(message: &str) -> ! {
    eprintln!("oracle: {message}");
    exit(1)
}
