//! `save`, run as a process: its options, its usual values, and what it refuses first.
use crate::support::*;
use std::fs;
use varnucht::Name;

#[test]
fn save_by_all_its_options() {
    let folder = Folder::new();
    let image = folder.image(&disk::<&str>(&[]));
    let file = folder.file("body", &body(1_000));
    let options = [
        "--kind",
        "screen",
        "--page",
        "0x1f",
        "--offset=49151",
        "--exec",
        "0102FF",
        "--info",
        "0a0b",
    ];
    let words = ["PICTURE".into(), file.into_os_string()]
        .into_iter()
        .chain(options.map(Into::into));
    assert_eq!(on("save", &image, words).done(), "saved PICTURE: 3 sectors written\n");
    let disk = disk_in(&image);
    let entry = disk.listing().find(&Name::new("PICTURE").unwrap()).unwrap();
    assert_eq!(
        (entry.kind().number(), entry.start().map(|start| start.address())),
        (20, Some(540_671))
    );
    assert_eq!(
        (entry.execution(), entry.information()),
        ([1, 2, 255], [10, 11, 0, 0, 0, 0, 0, 0, 0, 0, 0])
    );
    assert_eq!(disk.read(&entry.name()).unwrap(), body(1_000));
}

#[test]
fn save_by_its_usual_values() {
    let folder = Folder::new();
    let image = folder.image(&disk::<&str>(&[]));
    let words = ["save".into(), image.clone().into_os_string(), "CODE".into(), "-".into()];
    assert_eq!(fed(words, &body(502)).done(), "saved CODE: 3 sectors written\n");
    let disk = disk_in(&image);
    let entry = disk.listing().find(&Name::new("CODE").unwrap()).unwrap();
    assert_eq!(
        (
            entry.kind().number(),
            entry.start().map(|start| (start.page(), start.offset()))
        ),
        (19, Some((1, 32_768)))
    );
    assert_eq!((entry.execution(), entry.information()), ([255; 3], [0; 11]));
    assert_eq!(disk.read(&entry.name()).unwrap(), body(502));
}

#[test]
fn save_by_every_kind() {
    let folder = Folder::new();
    let image = folder.image(&disk::<&str>(&[]));
    let file = folder.file("body", b"body").into_os_string();
    let kinds = [
        "basic",
        "numeric-array",
        "string-array",
        "code",
        "screen",
        "16",
        "17",
        "18",
        "19",
        "0x14",
        "BASIC",
        "numeric",
        "string",
    ];
    for (place, kind) in kinds.into_iter().enumerate() {
        let words = [format!("FILE{place}").into(), file.clone(), "--kind".into(), kind.into()];
        on("save", &image, words).done();
    }
    let numbers: Vec<u8> = disk_in(&image)
        .listing()
        .entries()
        .iter()
        .map(|entry| entry.kind().number())
        .collect();
    assert_eq!(numbers, [16, 17, 18, 19, 20, 16, 17, 18, 19, 20, 16, 17, 18]);
}

#[test]
fn save_is_refused_in_the_papers_order() {
    let folder = Folder::new();
    let image = folder.image(&disk(&[("TAKEN", 10)]));
    let before = fs::read(&image).unwrap();
    let long = folder.file("long", &vec![0; 2_000_000]).into_os_string();
    let wrong = [("A\\x07", 12), ("", 12), (" A", 12), ("TAKEN", 13)];
    for (name, number) in wrong {
        let words = [
            name.into(),
            long.clone(),
            "--kind".into(),
            "21".into(),
            "--page".into(),
            "32".into(),
        ];
        on("save", &image, words).fails(1, &format!("refusal {number}: "));
    }
    for option in [
        ["--page", "32"],
        ["--offset", "32767"],
        ["--offset", "49152"],
        ["--page", "99999999999999999999"],
    ] {
        on(
            "save",
            &image,
            ["TAKEN".into(), long.clone(), option[0].into(), option[1].into()],
        )
        .fails(1, "TAKEN: refusal 14: ");
    }
    on("save", &image, ["TAKEN".into(), long.clone()]).fails(
        1,
        "TAKEN: refusal 16 at slot 1: a live slot has the new name, capitals or not\n",
    );
    on("save", &image, ["FREE".into(), long]).fails(1, "refusal 19: fewer free sectors than the save takes\n");
    assert!(fs::read(&image).unwrap() == before);
    let full: Vec<(String, usize)> = (1..=80).map(|number| (format!("FILE{number}"), 0)).collect();
    let image = folder.image(&disk(&full));
    on("save", &image, ["MORE", "/dev/null"])
        .fails(1, "refusal 18: no slot before the end is erased and there is no end (save)\n");
}
