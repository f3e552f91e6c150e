//! Links the core: the archive that `./jallumere` builds of the crate `replica_c`, the archive or object that JALLUMERE_CORE
//! names, or the C model where JALLUMERE_CORE is `model`.
//!
//! Checking and documenting need no core, and a build script cannot tell them from building. So where there is none it
//! warns and goes on; the functions then have names that tell the linker's user what is missing (src/raw.rs).

use std::path::{Path, PathBuf};
use std::process::{exit, Command};
use std::{env, fs};

fn stop(words: &str) -> ! {
    eprintln!("jallumere: {words}");
    exit(1);
}

fn variable(name: &str) -> String {
    env::var(name).unwrap_or_else(|_| stop(&format!("{name} is not set; cargo sets it")))
}

/// Says why no core is linked, and lets src/raw.rs say it again where something is linked.
fn go_without(why: &str, words: &str) {
    println!("cargo:warning={words}; checking and documenting work, linking does not");
    println!("cargo:rustc-cfg=jallumere_core=\"{why}\"");
}

/// The C model as an object.
fn compile_model(root: &Path) -> PathBuf {
    let object = PathBuf::from(variable("OUT_DIR")).join("model-core.o");
    let (include, hosts) = (root.join("include"), root.join("hosts"));
    for folder in [&include, &hosts.join("common"), &hosts.join("model")] {
        println!("cargo:rerun-if-changed={}", folder.display());
    }
    let compiler = env::var_os("CC").unwrap_or_else(|| "cc".into());
    let mut command = Command::new(compiler);
    command.args(["-std=c11", "-O2", "-fPIC", "-c", "-I"]).arg(include).arg("-I").arg(hosts.join("common"));
    match command.arg("-o").arg(&object).arg(hosts.join("model/core.c")).status() {
        Ok(status) if status.success() => object,
        _ => stop("the C model could not be compiled; CC names the compiler, 'cc' otherwise"),
    }
}

/// The core that is to be linked. A relative JALLUMERE_CORE is meant from the repository's root, as `./jallumere` takes
/// it when called there, and one that names nothing is a mistake, which is said at once.
fn find_core(root: &Path) -> Option<PathBuf> {
    if let Some(named) = env::var_os("JALLUMERE_CORE").filter(|named| !named.is_empty()) {
        if named == "model" {
            return Some(compile_model(root));
        }
        let path = root.join(named);
        if !path.is_file() {
            stop(&format!("missing: JALLUMERE_CORE names '{}', which is no file", path.display()));
        }
        return Some(path);
    }
    let machine = variable("CARGO_CFG_TARGET_ARCH");
    if machine != "x86_64" {
        let words = format!("the proved core is x86-64 code and the target is {machine}: build for an x86-64 target");
        go_without("other_machine", &words);
        return None;
    }
    let path = root.join("target/staticlib/libreplica.a");
    println!("cargo:rerun-if-changed={}", path.display());
    if !path.is_file() {
        let words = "missing: target/staticlib/libreplica.a; build it by './jallumere simulate' at the repository's root, or as \
                     docs/HOSTS.md says, or name another archive in JALLUMERE_CORE";
        go_without("missing", words);
        return None;
    }
    Some(path)
}

fn main() {
    println!("cargo:rerun-if-changed=build.rs");
    println!("cargo:rerun-if-env-changed=JALLUMERE_CORE");
    println!("cargo:rustc-check-cfg=cfg(jallumere_core, values(\"missing\", \"other_machine\"))");
    let Some(core) = find_core(&Path::new(&variable("CARGO_MANIFEST_DIR")).join("../..")) else {
        return;
    };
    println!("cargo:rerun-if-changed={}", core.display());
    let out = PathBuf::from(variable("OUT_DIR"));
    let archive = out.join("libjallumere_core.a");
    let _ = fs::remove_file(&archive);
    if core.extension().is_some_and(|end| end == "a") {
        if let Err(error) = fs::copy(&core, &archive) {
            stop(&format!("{} cannot be copied: {error}", core.display()));
        }
    } else {
        match Command::new("ar").arg("crs").arg(&archive).arg(&core).status() {
            Ok(status) if status.success() => {}
            _ => stop("'ar' could not make an archive of the object that JALLUMERE_CORE names"),
        }
    }
    println!("cargo:rustc-link-search=native={}", out.display());
    println!("cargo:rustc-link-lib=static=jallumere_core");
}
