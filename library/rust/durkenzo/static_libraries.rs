//! Shared code of the library crates' build scripts. It finds the static libraries, and builds nothing.
use std::path::PathBuf;
use std::{env, fmt, process};

/// The variable that names the folder of the libraries.
const NAMED: &str = "DURKENZO_LIB";
/// The toolchain's C library, which each of our libraries needs.
const OF_THE_KIT: &str = "libc_c";
/// The file beside libraries that weren't proved.
const MARK: &str = "UNPROVED";

/// How to make a missing library.
const HOW: &str =
    ", and a build script builds none. Build the libraries first, in a clone of Durkenzo:

    export DURKENZO_LIB=$(tools/unproved --library)   # without proof, in 2 processor minutes
    (cd crates/CRATE && rt lib)   # or proved, in some 35: DURKENZO_LIB unset, and rt on the PATH

Or unpack an archive of ./dist, and have DURKENZO_LIB name its folder lib/durkenzo.";

/// Why nothing can be linked.
pub enum LinkFault {
    /// The libraries are machine code of another target.
    Target(String),
    /// A library is in none of these folders.
    Absent(String, Vec<PathBuf>),
}

impl fmt::Display for LinkFault {
    fn fmt(&self, f: &mut fmt::Formatter<'_>) -> fmt::Result {
        match self {
            LinkFault::Target(target) => write!(
                f,
                "its proved libraries are for Linux on x86_64 only, and this is a build for {target}"
            ),
            LinkFault::Absent(library, folders) => {
                let looked = folders.iter().map(|it| format!(" in {}", it.display()));
                let proved = if library == OF_THE_KIT { "sm_c" } else { library };
                write!(f, "there is no lib{library}.a{}", looked.collect::<Vec<_>>().join(" or"))?;
                write!(f, "{}", HOW.replace("CRATE", proved))
            }
        }
    }
}

/// Returns the target of this build if the libraries aren't for it.
fn other_target() -> Option<String> {
    let is = |name: &str, wanted: &str| env::var(name).is_ok_and(|it| it == wanted);
    let is_ours = is("CARGO_CFG_TARGET_OS", "linux") && is("CARGO_CFG_TARGET_ARCH", "x86_64");
    (!is_ours).then(|| env::var("TARGET").expect("cargo sets it"))
}

/// Returns where the toolchain keeps its C library: in `c/` beside the `bin/` of `rt`.
fn kit() -> Option<PathBuf> {
    let paths = env::var_os("PATH")?;
    let mut programs = env::split_paths(&paths).map(|it| it.join("rt"));
    let rt = programs.find(|it| it.is_file())?;
    Some(rt.canonicalize().ok()?.parent()?.parent()?.join("c"))
}

/// Returns the folder in which the library's own crate leaves it once it is proved, if this is a checkout of the
/// repository.
fn proved(library: &str) -> Option<PathBuf> {
    let here = PathBuf::from(env::var_os("CARGO_MANIFEST_DIR").expect("cargo sets it"));
    let folder = here.ancestors().nth(3)?.join("crates").join(library);
    folder.is_dir().then(|| folder.join("out"))
}

/// Returns the folders in which the library may be: the folder that is named, or the one where it was proved. The
/// toolchain's library is in a folder of its own.
fn folders(library: &str) -> Vec<PathBuf> {
    let first = env::var_os(NAMED)
        .map(PathBuf::from)
        .or_else(|| proved(library));
    let last = kit().filter(|_| library == OF_THE_KIT);
    first.into_iter().chain(last).collect()
}

/// Links the library. Returns whether it was proved.
fn linked(library: &str) -> Result<bool, LinkFault> {
    let (folders, name) = (folders(library), format!("lib{library}.a"));
    let Some(folder) = folders.iter().find(|it| it.join(&name).is_file()) else {
        return Err(LinkFault::Absent(library.into(), folders));
    };
    println!("cargo:rerun-if-changed={}", folder.join(&name).display());
    println!("cargo:rustc-link-search=native={}", folder.display());
    println!("cargo:rustc-link-lib=static={library}");
    Ok(!folder.join(MARK).is_file())
}

/// Links these libraries and the toolchain's. Returns whether they were proved. On docs.rs nothing is linked.
fn all_linked(libraries: &[&str]) -> Result<bool, LinkFault> {
    if env::var_os("DOCS_RS").is_some() {
        return Ok(true);
    }
    if let Some(target) = other_target() {
        return Err(LinkFault::Target(target));
    }
    let mut are_proved = true;
    for library in libraries.iter().chain([&OF_THE_KIT]) {
        are_proved &= linked(library)?;
    }
    Ok(are_proved)
}

/// Links these libraries, or ends the build with what is missing. Returns whether they were proved.
pub fn link(libraries: &[&str]) -> bool {
    println!("cargo:rerun-if-env-changed={NAMED}");
    println!("cargo:rerun-if-env-changed=DOCS_RS");
    all_linked(libraries).unwrap_or_else(|refusal| {
        eprintln!("{}: {refusal}", env!("CARGO_PKG_NAME"));
        process::exit(1)
    })
}
