//! Runs the C and C++ compilers as processes, in a temporary folder, with every warning an error.
use std::fs;
use std::path::{Path, PathBuf};
use std::process::{self, Command, Output};

#[derive(Clone, Copy, Debug, PartialEq, Eq)]
pub enum Language {
    C,
    Cpp,
}

pub const BOTH: [Language; 2] = [Language::C, Language::Cpp];

/// What must compile without a word.
pub const STRICT: [&str; 4] = ["-Wall", "-Wextra", "-pedantic", "-Werror"];

impl Language {
    fn compiler(self) -> &'static str {
        match self {
            Language::C => "cc",
            Language::Cpp => "c++",
        }
    }

    /// The oldest standard that the header promises.
    pub fn standard(self) -> &'static str {
        match self {
            Language::C => "c99",
            Language::Cpp => "c++11",
        }
    }

    fn source(self) -> &'static str {
        match self {
            Language::C => "c",
            Language::Cpp => "c++",
        }
    }
}

/// The repository's folder.
pub fn root() -> PathBuf {
    Path::new(env!("CARGO_MANIFEST_DIR")).join("..")
}

/// The archive that the crate itself is linked with.
pub fn archive() -> PathBuf {
    let folder = std::env::var_os("VARNUCHT_ARCHIVE").map_or_else(|| root().join("target/staticlib"), PathBuf::from);
    folder.join("libvarnucht.a")
}

/// A file of `host/tests/header`.
pub fn part(name: &str) -> PathBuf {
    Path::new(env!("CARGO_MANIFEST_DIR")).join("tests/header").join(name)
}

/// A temporary folder, removed when it is dropped.
pub struct Folder(PathBuf);

impl Folder {
    pub fn new(name: &str) -> Folder {
        let path = Path::new(env!("CARGO_TARGET_TMPDIR")).join(format!("{name}-{}", process::id()));
        fs::create_dir_all(&path).expect("a temporary folder");
        Folder(path)
    }

    pub fn file(&self, name: &str) -> PathBuf {
        self.0.join(name)
    }

    pub fn write(&self, name: &str, content: impl AsRef<[u8]>) -> PathBuf {
        let path = self.file(name);
        fs::write(&path, content).expect("a temporary file");
        path
    }
}

impl Drop for Folder {
    fn drop(&mut self) {
        let _ = fs::remove_dir_all(&self.0);
    }
}

/// Runs a compiler, which must be there.
fn run(language: Language, arguments: impl FnOnce(&mut Command)) -> Output {
    let compiler = language.compiler();
    let mut command = Command::new(compiler);
    arguments(&mut command);
    command
        .output()
        .unwrap_or_else(|error| panic!("the compiler `{compiler}` is needed for this test and cannot be run: {error}"))
}

/// Compiles one source to one object under a standard, with more flags; what the compiler said.
pub fn try_compile(language: Language, standard: &str, flags: &[&str], source: &Path, object: &Path) -> Output {
    run(language, |command| {
        command
            .arg(format!("-std={standard}"))
            .args(flags)
            .arg("-I")
            .arg(root().join("include"));
        command
            .arg("-I")
            .arg(part(""))
            .arg("-x")
            .arg(language.source())
            .arg("-c")
            .arg(source)
            .arg("-o")
            .arg(object);
    })
}

/// Compiles one source, strictly; it must go through, and without a word.
pub fn compile(language: Language, standard: &str, flags: &[&str], source: &Path, object: &Path) {
    let all: Vec<&str> = STRICT.iter().chain(flags).copied().collect();
    let output = try_compile(language, standard, &all, source, object);
    assert!(
        output.status.success() && output.stderr.is_empty(),
        "{} as {standard} {all:?}: {}",
        source.display(),
        String::from_utf8_lossy(&output.stderr)
    );
}

/// Links objects and the archive to a program, with more flags.
pub fn link(language: Language, objects: &[PathBuf], flags: &[&str], program: &Path) {
    let output = run(language, |command| {
        command.args(objects).args(flags).arg(archive()).arg("-o").arg(program);
    });
    assert!(
        output.status.success(),
        "linking {}: {}",
        program.display(),
        String::from_utf8_lossy(&output.stderr)
    );
}

/// Compiles sources strictly and links them with the archive.
pub fn build(language: Language, flags: &[&str], sources: &[PathBuf], folder: &Folder, name: &str) -> PathBuf {
    let objects: Vec<PathBuf> = (0..sources.len()).map(|i| folder.file(&format!("{name}-{i}.o"))).collect();
    for (source, object) in sources.iter().zip(&objects) {
        compile(language, language.standard(), flags, source, object);
    }
    let program = folder.file(name);
    link(language, &objects, &[], &program);
    program
}
