//! The demo: its table shows how many modules were misprinted, and of its command line what it does not know is an error, and then
//! nothing is written.

use muosleap::{Refusal, Report};
use std::ffi::OsStr;
use std::fs;
use std::path::{Path, PathBuf};
use std::process::{Command, Output};

/// Runs the demo in an empty folder.
fn demo(name: &str, words: &[&OsStr]) -> (PathBuf, Output) {
    let folder = Path::new(env!("CARGO_TARGET_TMPDIR")).join(name);
    let _ = fs::remove_dir_all(&folder);
    fs::create_dir_all(&folder).unwrap();
    let mut demo = Command::new(env!("CARGO_BIN_EXE_demo"));
    let output = demo.current_dir(&folder).env_remove("DEMO_FOLDER").args(words).output().unwrap();
    (folder, output)
}

/// Words that the demo does not take, and what it says of them.
const BAD_OPTIONS: [(&str, &str); 27] = [
    ("--smear 99", "--smear takes a number from 0 to 35, not 99"),
    ("--smear 36", "--smear takes a number from 0 to 35, not 36"),
    ("--smear", "--smear takes a number from 0 to 35"),
    ("--smear -1", "--smear takes a number from 0 to 35, not -1"),
    ("--smear seven", "--smear takes a number from 0 to 35, not seven"),
    ("--smear --noise 3", "--smear takes a number from 0 to 35, not --noise"),
    ("--noise 256", "--noise takes a number from 0 to 255, not 256"),
    ("--noise 99999999999999999999", "--noise takes a number from 0 to 255, not 99999999999999999999"),
    ("out --noise", "--noise takes a number from 0 to 255"),
    ("--noise 2.5", "--noise takes a number from 0 to 255, not 2.5"),
    ("--pitch 1919", "--pitch takes a number from 1920 to 8192, not 1919"),
    ("--pitch 8193", "--pitch takes a number from 1920 to 8192, not 8193"),
    ("--pitch 0", "--pitch takes a number from 1920 to 8192, not 0"),
    ("--pitch -2048", "--pitch takes a number from 1920 to 8192, not -2048"),
    ("--pitch 18446744073709553664", "--pitch takes a number from 1920 to 8192, not 18446744073709553664"),
    ("--pitch wide", "--pitch takes a number from 1920 to 8192, not wide"),
    ("out --pitch", "--pitch takes a number from 1920 to 8192"),
    ("--pitch 2048 --pitch 2048", "--pitch is one too many"),
    ("out --report", "--report takes the name of a file"),
    ("--report --noise 3", "--report takes the name of a file"),
    ("--report a --report a", "--report is one too many"),
    ("--smear=14", "there is no option --smear=14"),
    ("--blur 3", "there is no option --blur"),
    ("out --help", "there is no option --help"),
    ("-", "there is no option -"),
    ("out more", "more is one too many"),
    ("--noise 3 out --noise 3", "--noise is one too many"),
];

#[test]
fn a_bad_option_is_an_error() {
    for (words, wrong) in BAD_OPTIONS {
        let (folder, output) = demo("bad", &words.split(' ').map(OsStr::new).collect::<Vec<_>>());
        let expected =
            format!("demo: {wrong}\nusage: demo [FOLDER] [--noise LEVELS] [--smear TAG] [--pitch BYTES] [--report FILE]\n");
        assert_eq!(String::from_utf8_lossy(&output.stderr), expected);
        assert_eq!((output.status.code(), output.stdout.len()), (Some(2), 0), "{words}");
        assert_eq!(fs::read_dir(folder).unwrap().count(), 0, "{words} wrote something");
    }
    for words in [&[""][..], &["--report", ""]] {
        assert_eq!(demo("bad", &words.iter().map(OsStr::new).collect::<Vec<_>>()).1.status.code(), Some(2));
    }
}

/// The table's columns of painted tags, tags as they were read, and differing modules.
fn columns(told: &str) -> Vec<[&str; 3]> {
    let table = told.lines().map(|line| line.split('|').map(str::trim).collect::<Vec<_>>()).filter(|line| line.len() == 5);
    table.skip(3).map(|line| [line[0], line[1], line[3]]).collect()
}

#[test]
fn misprinted_modules_are_shown() {
    let misprinted = |tag: usize| ["0", "1", "2"][(tag == 7) as usize + 2 * (tag == 22) as usize];
    for (words, smeared, read) in [(vec!["out"], None, 144), (vec!["out", "--smear", "22"], Some(22), 140)] {
        let (_, output) = demo("misprinted", &words.iter().map(OsStr::new).collect::<Vec<_>>());
        let told = String::from_utf8(output.stdout).unwrap();
        assert!(told.contains("Misprinted modules: 1 of tag 7, 2 of tag 22."), "{told}");
        assert!(told.contains("Quads to tags: 144 quads in ") && told.contains(": four lists, one for each start, "), "{told}");
        let line = format!("  {read} of 144 rows read, {read} of them as painted: tag, and number of misprinted modules.\n");
        assert!(told.contains(&line), "{told}");
        let tags: Vec<String> = (0..36).map(|tag: usize| tag.to_string()).collect();
        let expected = |(tag, name): (usize, &'_ String)| match smeared == Some(tag) {
            true => [name.clone(), "-".into(), "-".into()],
            false => [name.clone(), name.clone(), misprinted(tag).into()],
        };
        assert_eq!(columns(&told), tags.iter().enumerate().map(expected).collect::<Vec<_>>());
    }
}

#[test]
fn good_options_are_followed() {
    let (folder, output) = demo("good", &["--smear", "35", "out", "--noise", "0"].map(OsStr::new));
    let told = String::from_utf8_lossy(&output.stdout);
    assert!(output.status.success() && output.stderr.is_empty());
    assert!(told.contains("140 of 144 rows read"), "{told}");
    let mut written: Vec<_> = fs::read_dir(folder.join("out")).unwrap().map(|entry| entry.unwrap().file_name()).collect();
    written.sort();
    assert_eq!(written, ["marked.pgm", "marked.png", "sheet.pgm"]);
    assert_eq!(fs::read_dir(folder).unwrap().count(), 1);
}

#[test]
fn padded_lines_change_nothing() {
    let files = ["sheet.pgm", "marked.pgm", "marked.png"];
    let run = |name: &str, words: &[&str]| {
        let words = [&["out", "--smear", "14"], words].concat();
        let (folder, output) = demo(name, &words.iter().map(OsStr::new).collect::<Vec<_>>());
        assert!(output.status.success() && output.stderr.is_empty(), "{words:?}");
        (String::from_utf8(output.stdout).unwrap(), files.map(|file| fs::read(folder.join("out").join(file)).unwrap()))
    };
    let (packed, pictures) = run("packed", &[]);
    assert!(packed.contains("Its lines begin 1920 bytes after one another (pitch); 0 bytes between them are filler"), "{packed}");
    // All but the line with the pitch, and the two with times.
    let told =
        |text: &str| text.lines().filter(|line| !line.contains("(pitch)") && !line.contains(" ms")).map(String::from).collect();
    let told_packed: Vec<String> = told(&packed);
    assert_eq!(told_packed.len() + 3, packed.lines().count());
    for (pitch, filler) in [("1920", "0"), ("1921", "1079"), ("2048", "138112"), ("8192", "6767488")] {
        let (padded, pictures_padded) = run("padded", &["--pitch", pitch]);
        let line = format!("Its lines begin {pitch} bytes after one another (pitch); {filler} bytes between them are filler");
        assert!(padded.contains(&line), "{padded}");
        assert_eq!(told(&padded), told_packed);
        assert!(pictures_padded == pictures, "other pictures at a pitch of {pitch} bytes");
    }
}

/// With a report the demo says two lines more, and draws the same.
#[test]
fn a_report_is_written_and_read_back() {
    let run = |name: &str, words: &[&str]| {
        let words = [&["out", "--smear", "14"], words].concat();
        let (folder, output) = demo(name, &words.iter().map(OsStr::new).collect::<Vec<_>>());
        assert!(output.status.success() && output.stderr.is_empty(), "{words:?}");
        (folder, String::from_utf8(output.stdout).unwrap())
    };
    let ((without, plain), (with, told)) = (run("unreported", &[]), run("reported", &["--report", "the sheet.report"]));
    let lines = |told: &str| told.lines().filter(|line| !line.contains(" ms")).map(String::from).collect::<Vec<_>>();
    let report = [
        "Written: the sheet.report, the list from start 0 as a report: 36 rows in 1231 bytes",
        "Read back from there: the same reading, every bit of its corners included. The program `report` prints it",
    ];
    assert_eq!(lines(&told), [lines(&plain), report.map(String::from).to_vec()].concat());
    for file in ["sheet.pgm", "marked.pgm", "marked.png"] {
        assert!(
            [&without, &with]
                .map(|folder| fs::read(folder.join("out").join(file)).unwrap())
                .windows(2)
                .all(|two| two[0] == two[1])
        );
    }
    let report = Report::read(fs::read(with.join("the sheet.report")).unwrap()).unwrap();
    for (id, row) in report.rows().iter().enumerate() {
        match row {
            Ok(tag) => assert_eq!((tag.id, tag.turn), (id, 0)),
            Err(refusal) => assert_eq!((*refusal, id), (Refusal::UnsureModules, 14)),
        }
    }
    assert_eq!((report.rows()[7].unwrap().differing, report.rows()[22].unwrap().differing), (1, 2));
}

#[test]
fn a_report_that_cannot_be_written_is_an_error() {
    for (file, wrong) in
        [("no/folder/a", "cannot write no/folder/a: "), ("/dev/null", "/dev/null is not what was written: refusal 20: ")]
    {
        let (_, output) = demo("no-report", &["out", "--report", file].map(OsStr::new));
        let said = String::from_utf8(output.stderr).unwrap();
        assert!(output.status.code() == Some(1) && said.starts_with(&format!("demo: {wrong}")), "{said}");
    }
}

#[test]
fn a_folder_that_cannot_be_written_is_an_error() {
    let file = concat!(env!("CARGO_MANIFEST_DIR"), "/Cargo.toml");
    let (_, output) = demo("file", &[file].map(OsStr::new));
    assert_eq!(output.status.code(), Some(1));
    assert!(String::from_utf8_lossy(&output.stderr).starts_with(&format!("demo: cannot write to {file}: ")));
}
