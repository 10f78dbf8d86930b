//! What a packager gets: `./install`, one version everywhere, man pages and completions from the one table of commands.
use crate::support::*;
use std::fs;
use std::os::unix::fs::PermissionsExt;
use std::path::{Path, PathBuf};
use std::process::{Command, Output};

fn root() -> PathBuf {
    Path::new(env!("CARGO_MANIFEST_DIR")).join("..").canonicalize().unwrap()
}

/// All that is installed, by its path under the prefix.
const INSTALLED: [&str; 9] = [
    "bin/varnucht",
    "lib/libvarnucht.a",
    "include/varnucht.h",
    "lib/pkgconfig/varnucht.pc",
    "share/man/man1/varnucht.1",
    "share/man/man3/varnucht.3",
    "share/bash-completion/completions/varnucht",
    "share/zsh/site-functions/_varnucht",
    "share/fish/vendor_completions.d/varnucht.fish",
];

/// Runs `./install` from a folder with these words.
fn install(from: &Path, words: &[&str], destdir: &str) -> Output {
    let mut command = Command::new(root().join("install"));
    command.args(words).current_dir(from);
    command
        .env("VARNUCHT", TOOL)
        .env("DESTDIR", destdir)
        .output()
        .expect("the script runs")
}

/// Whether a program is there.
fn has(program: &str) -> bool {
    Command::new("sh")
        .args(["-c", &format!("command -v {program}")])
        .output()
        .unwrap()
        .status
        .success()
}

/// The commands that the help names, and those that they are called too.
fn commands() -> Vec<String> {
    let all = run(["help"]);
    let rows = all.done().lines().skip(2).take_while(|row| row.starts_with("  "));
    let names = rows.map(|row| row.split_whitespace().next().unwrap().to_string());
    names.filter(|name| !name.starts_with('-') && name != "help").collect()
}

#[test]
fn one_version_everywhere() {
    let version = env!("CARGO_PKG_VERSION");
    let header = fs::read_to_string(root().join("include/varnucht.h")).unwrap();
    assert!(header.contains(&format!("\n#define VARNUCHT_VERSION \"{version}\"\n")));
    let parts: Vec<u32> = version.split('.').map(|part| part.parse().unwrap()).collect();
    let number = 10_000 * parts[0] + 100 * parts[1] + parts[2];
    assert!(header.contains(&format!("\n#define VARNUCHT_VERSION_NUMBER {number}\n")));
    assert_eq!(run(["--version"]).done(), format!("varnucht {version}\n"));
    let changes = fs::read_to_string(root().join("CHANGELOG.md")).unwrap();
    assert!(
        changes.contains(&format!("\n## {version}")),
        "the changelog tells of this version"
    );
    assert!(
        run(["help", "--man"])
            .done()
            .starts_with(&format!(".TH VARNUCHT 1 \"\" \"varnucht {version}\" "))
    );
}

#[test]
fn all_is_installed_and_can_be_used() {
    let folder = Folder::new();
    let output = install(&folder.path(""), &["pre fix"], "");
    assert!(output.status.success(), "{}", String::from_utf8_lossy(&output.stderr));
    let prefix = folder.path("pre fix");
    let said: String = INSTALLED
        .iter()
        .map(|path| format!("{}\n", prefix.join(path).display()))
        .collect();
    assert_eq!(String::from_utf8(output.stdout).unwrap(), said);
    for path in INSTALLED {
        let rights = fs::metadata(prefix.join(path)).unwrap().permissions().mode() & 0o777;
        assert_eq!(rights, if path == "bin/varnucht" { 0o755 } else { 0o644 }, "{path}");
    }
    let tool = Command::new(prefix.join("bin/varnucht")).arg("--version").output().unwrap();
    assert_eq!(tool.stdout, run(["--version"]).out);
    // Once more over the same, and for a package that goes elsewhere.
    assert!(install(&folder.path(""), &["pre fix"], "").status.success());
    let elsewhere = folder.path("stage");
    assert!(
        install(&folder.path(""), &["/usr"], elsewhere.to_str().unwrap())
            .status
            .success()
    );
    let about = fs::read_to_string(elsewhere.join("usr/lib/pkgconfig/varnucht.pc")).unwrap();
    assert!(about.starts_with("prefix=/usr\n") && !about.contains("stage"), "{about}");
    for words in [&[][..], &[""], &["--help"], &["a", "b"]] {
        let wrong = install(&folder.path(""), words, "");
        assert_eq!((wrong.status.code(), wrong.stderr.starts_with(b"usage: ")), (Some(2), true));
    }
    let mut without = Command::new(root().join("install"));
    let output = without
        .arg("x")
        .current_dir(folder.path(""))
        .env("VARNUCHT", "nowhere")
        .output()
        .unwrap();
    assert!(String::from_utf8_lossy(&output.stderr).contains("nowhere is missing: run ./build first"));
    assert_eq!(folder.names(), ["pre fix", "stage"]);
}

/// A program of C is built by what pkg-config says, and by nothing else.
#[test]
fn a_program_by_pkg_config() {
    if !has("pkg-config") {
        println!("pkg-config is not there: nothing is tried");
        return;
    }
    let folder = Folder::new();
    assert!(install(&folder.path(""), &["prefix"], "").status.success());
    let line = "cc -std=c99 $(pkg-config --cflags varnucht) \"$1\" $(pkg-config --libs varnucht) -o files && ./files \"$2\"";
    let mut shell = Command::new("sh");
    shell
        .args(["-c", line, "sh"])
        .args([root().join("examples/files.c"), root().join("samples/sample.mgt")]);
    shell
        .env("PKG_CONFIG_PATH", folder.path("prefix/lib/pkgconfig"))
        .current_dir(folder.path(""));
    let output = shell.output().unwrap();
    assert!(output.status.success(), "{}", String::from_utf8_lossy(&output.stderr));
    assert!(String::from_utf8_lossy(&output.stdout).ends_with("1503 sectors free\n"));
    let mut asked = Command::new("pkg-config");
    asked
        .args(["--modversion", "varnucht"])
        .env("PKG_CONFIG_PATH", folder.path("prefix/lib/pkgconfig"));
    assert_eq!(
        asked.output().unwrap().stdout,
        format!("{}\n", env!("CARGO_PKG_VERSION")).into_bytes()
    );
}

/// Every command and every option is in every page.
#[test]
fn the_pages_have_the_whole_table() {
    let pages = ["--man", "--bash", "--zsh", "--fish"].map(|form| run(["help", form]).done().to_string());
    let [man, bash, zsh, fish] = &pages;
    let commands = commands();
    assert!(commands.len() >= 26, "{commands:?}");
    for command in &commands {
        assert!(
            man.contains(&format!("\n.SS \"{command} ")) || man.contains(&format!("\n.B {command}\n")),
            "{command}"
        );
        assert!(
            bash.contains(&format!(" {command} ")) || bash.contains(&format!("'{command} ")),
            "{command}"
        );
        assert!(zsh.contains(&format!("    '{command}:")), "{command}");
        assert!(fish.contains(&format!(" -f -a {command} -d '")), "{command}");
        let help = run(["help", command]);
        for option in help.done().lines().filter_map(|row| row.strip_prefix("  -")) {
            let name = format!("-{}", option.split([' ', ',']).next().unwrap());
            assert!(
                bash.contains(&format!("{name} ")) && zsh.contains(&format!("'{name}")),
                "{command} {name}"
            );
            let fished = name
                .strip_prefix("--")
                .map_or(format!(" -s {}", &name[1..]), |long| format!(" -l {long}"));
            assert!(fish.contains(&fished), "{command} {name}");
            assert!(
                man.contains(&format!("\n.B {}", name.replace('-', "\\-"))),
                "{command} {name}"
            );
        }
    }
    run(["help", "--csh"]).fails(2, "there is no command `--csh`");
    run(["help", "--man", "more"]).fails(2, "`help` takes one command");
}

#[test]
fn the_man_pages_are_pages() {
    if !has("groff") {
        println!("groff is not there: nothing is tried");
        return;
    }
    let folder = Folder::new();
    assert!(install(&folder.path(""), &["prefix"], "").status.success());
    for page in ["share/man/man1/varnucht.1", "share/man/man3/varnucht.3"] {
        let page = folder.path("prefix").join(page);
        let output = Command::new("groff")
            .args(["-man", "-ww", "-Kutf8", "-Tutf8"])
            .arg(&page)
            .output()
            .unwrap();
        assert_eq!(String::from_utf8_lossy(&output.stderr), "", "{page:?}");
        let text = String::from_utf8(output.stdout).unwrap();
        assert!(text.contains("SAM Coupé"), "{page:?}");
    }
}

/// What bash offers behind these words.
fn offered(words: &str) -> String {
    let script = run(["help", "--bash"]).done().to_string();
    let line = format!(
        "{script}\nCOMP_WORDS=({words}); COMP_CWORD=$((${{#COMP_WORDS[@]}} - 1)); _varnucht; echo \"${{COMPREPLY[*]}}\""
    );
    let output = Command::new("bash").args(["-c", &line]).output().unwrap();
    assert_eq!(String::from_utf8_lossy(&output.stderr), "");
    String::from_utf8(output.stdout).unwrap().trim().to_string()
}

#[test]
fn bash_completes() {
    assert_eq!(offered("varnucht sa"), "salvage save");
    assert_eq!(offered("varnucht l"), "list ls");
    assert_eq!(offered("varnucht help ga"), "gather");
    assert_eq!(offered("varnucht check --r"), "--release");
    assert_eq!(offered("varnucht rm disk.mgt --d"), "--dry-run");
    assert_eq!(offered("varnucht check disk"), "", "files are bash's own business");
    assert_eq!(offered("varnucht nothing -"), "");
    for shell in ["zsh", "fish"].into_iter().filter(|shell| has(shell)) {
        let folder = Folder::new();
        let file = folder.file("page", &run(["help", &format!("--{shell}")]).out);
        let output = Command::new(shell).arg("-n").arg(&file).output().unwrap();
        assert_eq!(String::from_utf8_lossy(&output.stderr), "", "{shell}");
    }
}
