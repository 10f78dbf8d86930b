//! `report`: images counted from paths, folders and lists, on one thread and on several.
use crate::support::*;
use std::ffi::OsStr;
use std::fs::{self, File};
use std::io::{BufRead, BufReader, Write};
use std::os::unix::ffi::OsStrExt;
use std::os::unix::fs::symlink;
use std::process::{Command, Stdio};
use std::time::{Duration, Instant};

/// A folder with some images: one with files, a blank one, a refused one, one that is too short, and a text.
fn fixture() -> Folder {
    let folder = Folder::new();
    let files = disk(&[
        ("ONE", 100),
        ("TWO", 900),
        ("THREE", 1_200),
        ("FOUR", 2_000),
        ("LONG", 300_000),
    ]);
    folder.file("files.mgt", files.image().as_bytes());
    folder.file("blank.DSK", disk::<&str>(&[]).image().as_bytes());
    let mut refused = files.into_image().into_bytes();
    refused[0] = 63;
    folder.file("refused", &refused);
    folder.file("short.img", b"no disk");
    folder.file("notes.txt", b"what is on the disks");
    folder
}

/// Runs the report in the folder.
fn report<S: AsRef<OsStr>>(folder: &Folder, words: impl IntoIterator<Item = S>) -> Run {
    let mut command = tool(["report"]);
    Run::of(
        command
            .args(words)
            .current_dir(folder.path(""))
            .output()
            .expect("the tool runs"),
    )
}

/// Runs it with this standard input.
fn report_fed(folder: &Folder, words: &[&str], input: &[u8]) -> Run {
    let mut command = tool(["report"]);
    command.args(words).current_dir(folder.path(""));
    let piped = command.stdin(Stdio::piped()).stdout(Stdio::piped()).stderr(Stdio::piped());
    let mut child = piped.spawn().expect("the tool runs");
    let _ = child.stdin.take().expect("it has an input").write_all(input);
    Run::of(child.wait_with_output().expect("the tool ends"))
}

/// A number of the JSON object.
fn field(run: &Run, name: &str) -> u64 {
    let (_, after) = run.text().split_once(&format!("\"{name}\":")).expect("the field is there");
    let end = after.find(|letter: char| !letter.is_ascii_digit()).expect("more follows");
    after[..end].parse().expect("a number")
}

/// Disks, accepted ones, and how many could not be read.
fn counted(run: &Run) -> (u64, u64, u64) {
    (field(run, "disks"), field(run, "accepted"), field(run, "not_read"))
}

const TABLE: &str = "\
disks                              4
  accepted                         2
  refused                          2
     1                             1  the image is not 819,200 bytes
     2                             1  the kind is not known
could not be read                  0
files                              5
  19 code                          5
sectors of files                 599
sectors free                    2521
files by their sectors
  0                                0
  1                                1  #####################
  2 to 3                           2  ##########################################
  4 to 7                           1  #####################
  8 to 15                          0
  16 to 31                         0
  32 to 63                         0
  64 to 127                        0
  128 to 255                       0
  256 to 511                       0
  512 to 1023                      1  #####################
  1024 and more                    0
";

const JSON: &str = "{\"disks\":4,\"accepted\":2,\"refused\":[\
{\"number\":1,\"words\":\"the image is not 819,200 bytes\",\"disks\":1},\
{\"number\":2,\"words\":\"the kind is not known\",\"disks\":1}],\"not_read\":0,\
\"files\":5,\"kinds\":[{\"kind\":19,\"words\":\"code\",\"files\":5}],\"file_sectors\":599,\"free_sectors\":2521,\
\"classes\":[{\"from\":0,\"to\":0,\"files\":0},{\"from\":1,\"to\":1,\"files\":1},{\"from\":2,\"to\":3,\"files\":2},\
{\"from\":4,\"to\":7,\"files\":1},{\"from\":8,\"to\":15,\"files\":0},{\"from\":16,\"to\":31,\"files\":0},\
{\"from\":32,\"to\":63,\"files\":0},{\"from\":64,\"to\":127,\"files\":0},{\"from\":128,\"to\":255,\"files\":0},\
{\"from\":256,\"to\":511,\"files\":0},{\"from\":512,\"to\":1023,\"files\":1},{\"from\":1024,\"to\":null,\"files\":0}]}\n";

/// By a folder, by paths and by a list, in any order, on any number of threads: one table, one object.
#[test]
fn images_are_counted() {
    let folder = fixture();
    folder.file("list", b"short.img\n\nrefused\n\n\nblank.DSK");
    let ways: [&[&str]; 6] = [
        &["."],
        &["files.mgt", "blank.DSK", "refused", "short.img"],
        &["short.img", "refused", "blank.DSK", "files.mgt"],
        &["--files-from", "list", "files.mgt"],
        &["files.mgt", "--files-from=list", "files.mgt", ".", "./files.mgt"],
        &["--no-wait", "."],
    ];
    for words in ways {
        for threads in ["--threads=1", "--threads=2", "--threads=7", "--color=never"] {
            let words = words.iter().chain([&threads]);
            assert_eq!(report(&folder, words.clone()).done(), TABLE);
            assert_eq!(report(&folder, words.chain([&"--json"])).done(), JSON);
        }
    }
    let painted = report(&folder, [".", "--color=always"]);
    assert!(painted.text().contains("\x1b[0;32m####"), "{}", painted.text());
    assert_eq!(plain(painted.done()), TABLE);
    let names = folder.names();
    assert_eq!(names, ["blank.DSK", "files.mgt", "list", "notes.txt", "refused", "short.img"]);
}

/// What is taken in folders, and what is passed over. Every file is taken once, whatever leads to it, and rings end.
#[test]
fn folders_are_searched() {
    let folder = fixture();
    fs::create_dir_all(folder.path("deep/er/and deeper")).unwrap();
    fs::create_dir_all(folder.path(".hidden")).unwrap();
    let blank = vec![0; 819_200];
    for name in [
        "deep/a.MGT",
        "deep/er/b.Img",
        "deep/er/and deeper/no ending",
        ".hidden/c.mgt",
        ".d.mgt",
    ] {
        folder.file(name, &blank);
    }
    folder.file("deep/mgt", b"too short, and its name has no ending");
    folder.file("deep/.mgt", b"a name that begins with a dot");
    folder.file("deep/empty.mgt", b"");
    let before = report(&folder, [".", "--json"]);
    before.done();
    assert_eq!(counted(&before), (4 + 4, 2 + 3, 0));
    // Rings of folders, links to files, to folders and to links, hard links, and a folder outside.
    symlink("..", folder.path("deep/up")).unwrap();
    symlink(".", folder.path("deep/er/here")).unwrap();
    symlink("../deep/er", folder.path("deep/again")).unwrap();
    symlink("ring.mgt", folder.path("ring2.mgt")).unwrap();
    symlink("ring2.mgt", folder.path("ring.mgt")).unwrap();
    symlink("files.mgt", folder.path("same.mgt")).unwrap();
    symlink("same.mgt", folder.path("deep/same again")).unwrap();
    fs::hard_link(folder.path("files.mgt"), folder.path("deep/hard.mgt")).unwrap();
    let other = Folder::new();
    other.file("other.mgt", &blank);
    symlink(other.path(""), folder.path("outside")).unwrap();
    symlink("nowhere", folder.path("no image")).unwrap();
    for words in [&[".", "--json"][..], &["deep", ".", "./deep/../", "--json", "--threads=3"]] {
        let run = report(&folder, words);
        assert_eq!((run.status, counted(&run)), (3, (9, 6, 2)));
        let named: Vec<&str> = run.err.lines().collect();
        assert_eq!(named.len(), 3, "{}", run.err);
        assert!(
            run.err.contains("ring.mgt: ") && run.err.contains("ring2.mgt: "),
            "{}",
            run.err
        );
        assert_eq!(
            named[2],
            "varnucht: 2 of 11 could not be read, and the report is without them"
        );
    }
    // What is named is taken, whatever its name; so is a hidden folder.
    let run = report(&folder, [".hidden", ".d.mgt", "notes.txt", "same.mgt", "--json"]);
    run.done();
    assert_eq!(counted(&run), (4, 3, 0));
    let empty = Folder::new();
    assert_eq!(counted(&report(&empty, [".", "--json"])), (0, 0, 0));
    assert_eq!(report(&empty, ["."]).status, 0);
}

/// Lists: empty lines, any bytes, a line that is no path, a list on standard input, and lists that cannot be read.
#[test]
fn lists() {
    let folder = fixture();
    let odd = OsStr::from_bytes(b"\xff odd\rname .mgt");
    fs::copy(folder.path("blank.DSK"), folder.path("").join(odd)).unwrap();
    fs::copy(folder.path("blank.DSK"), folder.path("-")).unwrap();
    let list = [b"\n\nfiles.mgt\n-\n\n".as_slice(), odd.as_bytes(), b"\n"].concat();
    folder.file("list", &list);
    let run = report(&folder, ["--files-from", "list", "--json"]);
    run.done();
    assert_eq!(counted(&run), (3, 3, 0));
    assert_eq!(
        report_fed(&folder, &["--files-from", "-", "--json"], &list).done(),
        run.text()
    );
    for empty in [&b""[..], b"\n", b"\n\n\n"] {
        let run = report_fed(&folder, &["--files-from=-", "--json"], empty);
        run.done();
        assert_eq!(counted(&run), (0, 0, 0));
    }
    // A line that is too long, one that just may be, one with a 0, and the rest all the same.
    let [long, longest] = [5_000, 4_095].map(|length| vec![b'x'; length]);
    let list = [&long[..], b"\n", &longest, b"\nfiles\0.mgt\nfiles.mgt\n", &long].concat();
    let run = report_fed(&folder, &["--files-from=-", "--json", "--threads=3"], &list);
    assert_eq!((run.status, counted(&run)), (3, (1, 1, 4)));
    let lines: Vec<&str> = run.err.lines().collect();
    assert_eq!(lines[0], "varnucht: standard input: line 1: it is longer than a path can be");
    assert!(lines[1].starts_with("varnucht: xxxxxxx") && lines[2].starts_with(r"varnucht: files\x00.mgt: "));
    assert_eq!(lines[3], "varnucht: standard input: line 5: it is longer than a path can be");
    report(&folder, ["--files-from", "nowhere", "files.mgt"]).fails(3, "varnucht: nowhere: No such file");
    report(&folder, ["--files-from", ".", "files.mgt"]).fails(3, "varnucht: .: Is a directory");
    report(&folder, ["--files-from="]).fails(3, "No such file");
}

/// While a list is still being written, what it has named is read, and what could not be is said.
#[test]
fn a_list_that_comes_slowly() {
    let folder = fixture();
    for threads in ["--threads=1", "--threads=2", "--threads=9"] {
        let mut command = tool(["report", "--files-from=-", "--json", threads]);
        command.current_dir(folder.path(""));
        let piped = command.stdin(Stdio::piped()).stdout(Stdio::piped()).stderr(Stdio::piped());
        let mut child = piped.spawn().expect("the tool runs");
        let (mut list, mut said) = (child.stdin.take().unwrap(), BufReader::new(child.stderr.take().unwrap()));
        for name in ["one", "two"] {
            write!(list, "files.mgt\n{name}\n").unwrap();
            let mut line = String::new();
            said.read_line(&mut line).unwrap();
            assert_eq!(line, format!("varnucht: {name}: No such file or directory (os error 2)\n"));
        }
        drop(list);
        let run = Run::of(child.wait_with_output().unwrap());
        assert_eq!((run.status, counted(&run)), (3, (1, 1, 2)));
    }
}

/// What cannot be read is named in the order in which it was met, and counted; the rest is done. A lock is waited for.
#[test]
fn what_cannot_be_read() {
    let folder = fixture();
    let words = [
        "no\nsuch",
        "files.mgt",
        "none.mgt",
        "blank.DSK",
        "files.mgt/image",
        "short.img",
        "never",
    ];
    for threads in ["--threads=1", "--threads=2", "--threads=16"] {
        let run = report(&folder, words.iter().chain([&threads, &"--json"]));
        assert_eq!((run.status, counted(&run)), (3, (3, 2, 4)));
        let named = run.err.lines().map(|line| line.split(": ").nth(1).unwrap_or(""));
        let expected = [r"no\x0asuch", "none.mgt", "files.mgt/image", "never", ""];
        assert_eq!(named.collect::<Vec<_>>()[..4], expected[..4], "{}", run.err);
        assert!(
            run.err
                .ends_with("varnucht: 4 of 7 could not be read, and the report is without them\n")
        );
        let table = report(&folder, words.iter().chain([&threads]));
        assert!(table.text().contains("\ncould not be read                  4\nfiles "));
        assert_eq!((table.status, table.err), (3, run.err));
    }
    let lock = File::open(folder.path("files.mgt")).unwrap();
    lock.lock().unwrap();
    let run = report(&folder, [".", "--no-wait", "--json"]);
    assert_eq!((run.status, counted(&run)), (3, (3, 1, 1)));
    assert!(
        run.err.starts_with("varnucht: ./files.mgt: another program has locked it\n"),
        "{}",
        run.err
    );
    let mut waiting = tool(["report", ".", "--threads=2"]);
    waiting
        .current_dir(folder.path(""))
        .stdout(Stdio::piped())
        .stderr(Stdio::piped());
    let child = waiting.spawn().unwrap();
    std::thread::sleep(Duration::from_millis(300));
    lock.unlock().unwrap();
    let run = Run::of(child.wait_with_output().unwrap());
    assert_eq!((run.status, run.text()), (0, TABLE));
    assert_eq!(
        run.err,
        "varnucht: ./files.mgt: waiting for another program that has locked it\n"
    );
}

/// Command lines that are not understood, standard input as an image, and an output that is closed.
#[test]
fn words_and_standard_files() {
    let folder = fixture();
    let usage: [(&[&str], &str); 7] = [
        (&[], "`report` takes IMAGE... or `--files-from LIST`: neither is given"),
        (&["--json"], "neither is given"),
        (&["-", "-"], "`-` is given twice"),
        (&["-", "--files-from=-"], "`-` is given twice"),
        (&["files.mgt", "--threads=0"], "`--threads` takes 1 to 64, and not `0`"),
        (&["files.mgt", "--threads", "65"], "`--threads` takes 1 to 64, and not `65`"),
        (&["files.mgt", "--threads=two"], "`two` is not a number"),
    ];
    for (words, said) in usage {
        report(&folder, words).fails(2, said);
    }
    let bytes = fs::read(folder.path("files.mgt")).unwrap();
    let run = report_fed(&folder, &["-", "blank.DSK", "--json"], &bytes);
    run.done();
    assert_eq!((counted(&run), field(&run, "files")), ((2, 2, 0), 5));
    let shell = |how: &str| {
        let mut shell = Command::new("sh");
        shell.args([
            "-c",
            &format!("exec \"$@\" {how}"),
            "sh",
            TOOL,
            "report",
            "-",
            "blank.DSK",
            "--json",
        ]);
        Run::of(shell.current_dir(folder.path("")).output().expect("the shell runs"))
    };
    let closed = shell("<&-");
    assert_eq!((closed.status, counted(&closed)), (3, (1, 1, 1)));
    assert!(
        closed.err.starts_with("varnucht: standard input: it is closed\n"),
        "{}",
        closed.err
    );
    shell("<files.mgt >&-").fails(3, "varnucht: standard output: it is closed\n");
    assert_eq!(counted(&shell("<files.mgt")), (2, 2, 0));
}

/// A device may be read again and again, and gives a disk of no bytes each time. One more than 65,535 is too many.
#[test]
fn no_more_than_65535_disks() {
    let folder = Folder::new();
    let lines = |many: usize| "/dev/null\n".repeat(many).into_bytes();
    for threads in ["--threads=1", "--threads=3"] {
        let run = report_fed(&folder, &["--files-from=-", "--json", threads], &lines(65_535));
        run.done();
        assert_eq!(counted(&run), (65_535, 0, 0));
        let run = report_fed(&folder, &["--files-from=-", "--json", threads], &lines(66_000));
        run.fails(
            1,
            "varnucht: report: refusal 31: a disk or join that would pass 65,535 disks\n",
        );
    }
}

/// A terminal shows how far it is, and the line goes away before anything else is said. The last image is a pipe that is
/// written late, so that there is something to wait for.
#[test]
fn progress_on_a_terminal() {
    let folder = fixture();
    let library = library(&folder, "terminal.c");
    let pipe = folder.path("pipe");
    assert!(
        Command::new("mkfifo")
            .arg(&pipe)
            .status()
            .expect("`mkfifo` is needed")
            .success()
    );
    let shown = |terminals: &str| {
        let mut command = tool(["report", "files.mgt", "pipe", "nowhere", "blank.DSK", "--threads=1", "--json"]);
        command
            .current_dir(folder.path(""))
            .env("LD_PRELOAD", &library)
            .env("TERMINALS", terminals);
        let child = command
            .stdout(Stdio::piped())
            .stderr(Stdio::piped())
            .spawn()
            .expect("the tool runs");
        std::thread::sleep(Duration::from_millis(300));
        File::options()
            .write(true)
            .open(&pipe)
            .unwrap()
            .write_all(b"no disk")
            .unwrap();
        let run = Run::of(child.wait_with_output().unwrap());
        assert_eq!((run.status, counted(&run)), (3, (3, 2, 1)));
        run.err
    };
    let said = "varnucht: nowhere: No such file or directory (os error 2)\n\
        varnucht: 1 of 4 could not be read, and the report is without them\n";
    assert_eq!(shown("1"), said);
    assert_eq!(shown("2"), format!("\r2 read \r       \r{said}"));
}

/// A number from a file of the system's about the tool, in bytes or kilobytes as it stands there.
fn proc_value(child: u32, file: &str, name: &str) -> u64 {
    let text = fs::read_to_string(format!("/proc/{child}/{file}")).expect("the tool is there");
    let line = text.lines().find_map(|line| line.strip_prefix(name)).expect("it is there");
    let word = line.split_whitespace().next().expect("a number");
    word.parse().expect("a number")
}

/// One image buffer a thread: what 3,000 images take is what 100 take, but for a few bytes for each.
#[test]
fn memory_does_not_grow_with_the_images() {
    let folder = Folder::new();
    let mut command = tool(["report", "--files-from=-", "--json", "--threads=2"]);
    command
        .current_dir(folder.path(""))
        .stdin(Stdio::piped())
        .stdout(Stdio::piped());
    let mut child = command.spawn().expect("the tool runs");
    let mut list = child.stdin.take().expect("it has an input");
    let mut feed = |from: usize, to: usize| {
        for number in from..to {
            let name = format!("{number}.mgt");
            File::create(folder.path(&name)).unwrap().set_len(819_200).unwrap();
            writeln!(list, "{name}").unwrap();
        }
        let began = Instant::now();
        while proc_value(child.id(), "io", "rchar:") < to as u64 * 819_200 {
            assert!(began.elapsed() < Duration::from_secs(60), "the tool does not read");
            std::thread::sleep(Duration::from_millis(5));
        }
        proc_value(child.id(), "status", "VmHWM:")
    };
    let (few, many) = (feed(0, 100), feed(100, 3_000));
    drop(list);
    let run = Run::of(child.wait_with_output().unwrap());
    assert_eq!(counted(&run), (3_000, 3_000, 0));
    println!("{few} KiB at most with 100 images, {many} KiB with 3,000");
    assert!(few < 12_000 && many < few + 1_000, "{few} KiB, {many} KiB");
}
