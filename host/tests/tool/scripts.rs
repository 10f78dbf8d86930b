//! What scripts read: JSON of `check`, `list` and `map`, names with a 0 behind them, and several images in one call.
use crate::support::*;
use std::ffi::OsStr;
use std::os::unix::ffi::OsStrExt;
use std::path::Path;
use varnucht::{Directory, Disk, Image, Name, NewName};

/// A disk with a name, a directory with a file in it, a Spectrum file, and a name that needs escapes.
fn fixture() -> Disk {
    let mut image = disk(&[("ONE", 10), ("TWO", 600), ("THREE", 20)]).into_image();
    let bytes = image.as_bytes_mut();
    bytes[210..220].copy_from_slice(b"MY \"DISK\\ ");
    bytes[256 + 1..256 + 11].copy_from_slice(b"T\"W\\O\x07    ");
    bytes[512] = 3;
    // The header of the third: kind 3, length 20, start 65,000.
    let third = disk(&[("ONE", 10), ("TWO", 600), ("THREE", 20)]);
    let place = third.listing().entries()[2].sectors().next().unwrap().place();
    bytes[place..place + 5].copy_from_slice(&[2, 20, 0, 0xe8, 0xfd]);
    bytes[768..779].copy_from_slice(b"\x15GAMES     ");
    (bytes[768 + 250], bytes[254]) = (7, 7);
    let mut disk = Disk::open(image).unwrap();
    drop(disk.hide(&Name::new("ONE").unwrap()).unwrap());
    disk
}

const LIST: &str = concat!(
    r#"{"image":"IMAGE","accepted":true,"name":"MY \"DISK\\\\","name_bytes":[77,89,32,34,68,73,83,75,92],"#,
    r#""directory_tracks":4,"slots":80,"free_slots":76,"free_sectors":1556,"room":793551,"files":["#,
    r#"{"slot":1,"name":"ONE","name_bytes":[79,78,69,32,32,32,32,32,32,32],"kind":19,"kind_words":"code","hidden":true,"#,
    r#""protected":false,"sectors":1,"length":10,"start":32768,"execution":[255,255,255],"#,
    r#""information":[0,0,0,0,0,0,0,0,0,0,0],"code":null,"in":"GAMES","in_code":7},"#,
    r#"{"slot":2,"name":"T\"W\\\\O\\x07","name_bytes":[84,34,87,92,79,7,32,32,32,32],"kind":19,"kind_words":"code","#,
    r#""hidden":false,"protected":false,"sectors":2,"length":600,"start":32768,"execution":[255,255,255],"#,
    r#""information":[0,0,0,0,0,0,0,0,0,0,0],"code":null,"in":null,"in_code":0},"#,
    r#"{"slot":3,"name":"THREE","name_bytes":[84,72,82,69,69,32,32,32,32,32],"kind":3,"kind_words":"ZX string array","#,
    r#""hidden":false,"protected":false,"sectors":1,"length":20,"start":65000,"execution":[255,255,255],"#,
    r#""information":[0,0,0,0,0,0,0,0,0,0,0],"code":null,"in":null,"in_code":0},"#,
    r#"{"slot":4,"name":"GAMES","name_bytes":[71,65,77,69,83,32,32,32,32,32],"kind":21,"kind_words":"directory","#,
    r#""hidden":false,"protected":false,"sectors":0,"length":null,"start":null,"execution":[0,0,0],"#,
    r#""information":[0,0,0,0,0,0,0,0,0,0,0],"code":7,"in":null,"in_code":0}]}"#,
    "\n"
);

fn with_path(text: &str, image: &Path) -> String {
    text.replace("IMAGE", image.to_str().unwrap())
}

#[test]
fn list_as_json() {
    let folder = Folder::new();
    let image = folder.image(&fixture());
    assert_eq!(on("list", &image, ["--json"]).done(), with_path(LIST, &image));
    // A full disk has no room, and one without a name has none.
    let full: Vec<(String, usize)> = (0..80).map(|number| (number.to_string(), 0)).collect();
    let image = folder.image(&disk(&full));
    let run = on("list", &image, ["--json"]);
    assert!(run.done().contains(r#""name":null,"name_bytes":null,"#), "{}", run.text());
    assert!(
        run.text().contains(r#""free_slots":0,"free_sectors":1480,"room":null,"#),
        "{}",
        run.text()
    );
}

#[test]
fn map_as_json() {
    let folder = Folder::new();
    let mut disk = disk(&[("GAP", 10), ("WALL", 10)]);
    drop(disk.erase(&Name::new("GAP").unwrap()).unwrap());
    let body = body(1_000);
    let (name, start) = (NewName::new("PARTS").unwrap(), varnucht::Start::new(1, 32_768).unwrap());
    drop(
        disk.save(&varnucht::NewFile::new(varnucht::CarriedKind::Code, name, start, &body))
            .unwrap(),
    );
    let image = folder.image(&disk);
    let run = on("map", &image, ["--json"]);
    let files = concat!(
        r#""files":[{"slot":1,"name":"PARTS","name_bytes":[80,65,82,84,83,32,32,32,32,32],"scattered":true,"sectors":[80,82]},"#,
        r#"{"slot":2,"name":"WALL","name_bytes":[87,65,76,76,32,32,32,32,32,32],"scattered":false,"sectors":[81]}]}"#,
        "\n"
    );
    assert!(run.done().ends_with(files), "{}", run.text());
    let front = with_path(
        r#"{"image":"IMAGE","accepted":true,"directory":[0,1,2,3,4,5,6,7,8,9,20,"#,
        &image,
    );
    assert!(run.text().starts_with(&front), "{}", run.text());
    let free = run.text().split(r#""free":["#).nth(1).unwrap().split(']').next().unwrap();
    let numbers: Vec<usize> = free.split(',').map(|number| number.parse().unwrap()).collect();
    assert_eq!(
        (numbers.len(), &numbers[..12]),
        (1_557, &[10, 11, 12, 13, 14, 15, 16, 17, 18, 19, 30, 31][..])
    );
}

#[test]
fn check_as_json() {
    let folder = Folder::new();
    let image = folder.file("disk.mgt", Image::blank_with(Directory::new(39).unwrap()).as_bytes());
    let said = with_path("{\"image\":\"IMAGE\",\"accepted\":true,\"directory_tracks\":39", &image);
    assert_eq!(on("check", &image, ["--json"]).done(), format!("{said}}}\n"));
    assert_eq!(
        on("check", &image, ["--json", "--all"]).done(),
        format!("{said},\"faults\":[]}}\n")
    );
    let mut refused = disk(&[("ONE", 10), ("TWO", 10), ("three", 10), ("ONE MORE", 10)]).into_image();
    refused.as_bytes_mut()[0] = 13;
    let name = refused.as_bytes()[513..523].to_vec();
    refused.as_bytes_mut()[257..267].copy_from_slice(&name.to_ascii_uppercase());
    let refused = folder.file("refused.mgt", refused.as_bytes());
    let run = run(["check", "--json", "--all", refused.to_str().unwrap(), image.to_str().unwrap()]);
    assert_eq!((run.status, run.err.as_str()), (1, ""), "the object says it");
    let faults = concat!(
        r#"{"image":"IMAGE","accepted":false,"refusal":2,"slot":1,"words":"the kind is not known","more":null,"faults":["#,
        r#"{"slot":1,"with":null,"name":"ONE","name_bytes":[79,78,69,32,32,32,32,32,32,32],"refusal":2,"#,
        r#""words":"the kind is not known"},"#,
        r#"{"slot":3,"with":2,"name":"three","name_bytes":[116,104,114,101,101,32,32,32,32,32],"refusal":9,"#,
        r#""words":"the name is an earlier live slot's, capitals or not"}]}"#,
        "\n"
    );
    assert_eq!(run.text(), with_path(faults, &refused) + &said + ",\"faults\":[]}\n");
}

#[test]
fn refused_as_json() {
    let folder = Folder::new();
    let image = folder.file("disk.mgt", &[0; 3]);
    for command in ["check", "list", "map"] {
        let run = on(command, &image, ["--json"]);
        assert_eq!((run.status, run.err.as_str()), (1, ""), "{command}");
        let said = concat!(
            r#"{"image":"IMAGE","accepted":false,"refusal":1,"slot":null,"words":"the image is not 819,200 bytes","#,
            r#""more":"it has 3"}"#,
            "\n"
        );
        assert_eq!(run.text(), with_path(said, &image), "{command}");
        // What cannot be read has no object.
        on(command, &folder.path("none"), ["--json"]).fails(3, "/none: ");
    }
}

#[test]
fn names_for_scripts() {
    let folder = Folder::new();
    let image = folder.image(&fixture());
    for option in ["-0", "--null"] {
        assert_eq!(on("list", &image, [option]).done(), "ONE\0T\"W\\\\O\\x07\0THREE\0GAMES\0");
    }
    // The path's own bytes, whatever they are.
    let odd = folder.path("").join(OsStr::from_bytes(b"a\n\xff.mgt"));
    std::fs::copy(folder.file("b.mgt", disk(&[("FOUR", 1)]).image().as_bytes()), &odd).unwrap();
    let run = run([OsStr::new("list"), "-0".as_ref(), odd.as_os_str(), image.as_os_str()]);
    let path = odd.as_os_str().as_bytes();
    assert!(
        run.out
            .starts_with(&[path, b"\0FOUR\0", image.as_os_str().as_bytes(), b"\0ONE\0"].concat())
    );
    let refused = folder.file("refused.mgt", b"");
    let run = crate::support::run([OsStr::new("check"), "-0".as_ref(), odd.as_os_str(), refused.as_os_str()]);
    assert_eq!((run.status, run.out), (1, [path, b"\0"].concat()));
    assert!(run.err.contains("refused.mgt: refusal 1: "), "{}", run.err);
    for command in ["check", "list"] {
        on(command, &image, ["-0", "--json"]).fails(2, "`--json` and `-0` are two forms, and one is printed");
    }
}

#[test]
fn several_images_are_listed() {
    let folder = Folder::new();
    let one = folder.file("one.mgt", disk(&[("ONE", 10)]).image().as_bytes());
    let two = folder.file("two.mgt", disk(&[("TWO", 10)]).image().as_bytes());
    let table = |image: &Path| on("list", image, NONE).done().to_string();
    let both = format!("{}:\n{}\n{}:\n{}\n", one.display(), table(&one), two.display(), table(&two));
    assert_eq!(on("list", &one, [&two]).done(), both);
    let none = folder.path("none.mgt");
    let refused = folder.file("refused.mgt", b"");
    let run = on("list", &one, [&refused, &none, &two]);
    assert_eq!((run.status, run.text()), (3, both.as_str()), "the others go on");
    assert_eq!(run.err.lines().count(), 2, "{}", run.err);
    on("list", Path::new("-"), ["-"]).fails(2, "standard input can be read once");
    assert!(
        fed(
            ["list".as_ref(), "-".as_ref(), one.as_os_str()],
            &std::fs::read(&two).unwrap()
        )
        .text()
        .starts_with("standard input:\n")
    );
}
