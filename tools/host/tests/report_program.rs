//! The program `report`: prints the rows of a report file, and says what is wrong with any other file, and with its command line.

use muosleap::reports::LONGEST;
use muosleap::{Family, Grid, Picture, Print, Quad, Report};
use std::fs::{self, File};
use std::path::{Path, PathBuf};
use std::process::{Command, Output, Stdio};

/// A folder with these bytes in the file a.report.
fn folder(name: &str, bytes: &[u8]) -> PathBuf {
    let folder = Path::new(env!("CARGO_TARGET_TMPDIR")).join(name);
    let _ = fs::remove_dir_all(&folder);
    fs::create_dir_all(&folder).unwrap();
    fs::write(folder.join("a.report"), bytes).unwrap();
    folder
}

/// Runs the program in a folder.
fn report(folder: &Path, words: &[&str]) -> Output {
    Command::new(env!("CARGO_BIN_EXE_report")).current_dir(folder).args(words).output().unwrap()
}

/// What it says of these bytes, which are a report, in a folder of this name.
fn told(name: &str, bytes: &[u8]) -> String {
    let output = report(&folder(name, bytes), &["a.report"]);
    assert!(output.status.success() && output.stderr.is_empty(), "{}", String::from_utf8_lossy(&output.stderr));
    String::from_utf8(output.stdout).unwrap()
}

/// A list of six quads: three tags, one of them turned and one misprinted, a quad outside the picture, and one tag twice.
fn reading() -> Vec<u8> {
    let family = Family::T36H11;
    let print = Print { x: 4, y: 4, cell: 3, turn: 0, light: 220, dark: 20 };
    let words = [0, 1, 2, 300].map(|id: usize| family.codes()[id] ^ (id == 2) as u64);
    let mut picture = Picture::packed(vec![0; 170 * 50], 170, 50);
    let table = muosleap::Table { codes: &words, ..family.table() };
    let quads = table.paint_sheet(&mut picture, &Grid { rows: 1, columns: 4, gap: 3 }, &print).unwrap();
    let list = [quads[0], Quad::from([170.0; 8]), quads[1], quads[2], quads[3].started(1), quads[0].started(2)];
    Report::write(&family.try_decode_quads(&picture, &list).unwrap()).unwrap().into_bytes()
}

const TABLE: &str = "\
a.report: 6 rows in 115 bytes: 3 tags and 3 refusals.

   row |  tag | turn | differing | corners in print order: fourth, third, second, first (x, y)
       |      |      | modules   |
  -----|------|------|-----------|--------------------------------------------------------------------------------------
     0 |    - |    - |         - | refusal 18: another quad of the list gives the same id
     1 |    - |    - |         - | refusal 9: a corner rounds outside the picture
     2 |    1 |    0 |         0 | (   42.50,    33.50) (   72.50,    33.50) (   72.50,     3.50) (   42.50,     3.50)
     3 |    2 |    0 |         1 | (   81.50,    33.50) (  111.50,    33.50) (  111.50,     3.50) (   81.50,     3.50)
     4 |  300 |    3 |         0 | (  120.50,    33.50) (  150.50,    33.50) (  150.50,     3.50) (  120.50,     3.50)
     5 |    - |    - |         - | refusal 18: another quad of the list gives the same id
  About refusal 9: move the sheet, so that the whole tag is in view, or mend the quad search.
  About refusal 18: two sheets overlap, or one tag was found twice: leave one sheet on the belt, or mend the quad search.
";

#[test]
fn rows_are_printed() {
    assert_eq!(told("rows", &reading()), TABLE);
}

#[test]
fn short_and_long_reports_are_printed() {
    assert!(told("short", &[0, 0]).starts_with("a.report: 0 rows in 2 bytes: 0 tags and 0 refusals.\n"));
    assert!(told("short", &[1, 0, 16, 13]).starts_with("a.report: 1 row in 4 bytes: 0 tags and 1 refusal.\n"));
    // The longest report: 1,024 tags with all fields, and corners that take the most room.
    let row = |id: u16| [&[15][..], &id.to_le_bytes(), &[3, 63], &[0xff, 0xff, 0x7f, 0xc6].repeat(8)].concat();
    let longest = [&[0, 4], &(0..1_024).flat_map(row).collect::<Vec<u8>>()[..]].concat();
    assert_eq!(longest.len(), LONGEST);
    let told = told("longest", &longest);
    assert!(told.starts_with("a.report: 1024 rows in 37890 bytes: 1024 tags and 0 refusals.\n"));
    assert!(told.ends_with("  1023 | 1023 |    3 |        63 | (-16384.00, -16384.00) (-16384.00, -16384.00) (-16384.00, -16384.00) (-16384.00, -16384.00)\n"));
    assert_eq!(told.lines().count(), 5 + 1_024);
}

#[test]
fn other_files_are_refused_by_name_and_number() {
    let good = reading();
    let longer = [&[0, 0][..], &[0; 100_000]].concat();
    let more = [&[1, 4][..], &[16; 100_000]].concat();
    for (bytes, refusal) in [
        (&good[..good.len() - 1], "BadReport: refusal 20: "),
        (&[&good[..], b"\n"].concat(), "BadReport: refusal 20: "),
        (&[], "BadReport: refusal 20: "),
        (&[0], "BadReport: refusal 20: "),
        (&[1, 4], "ReportLength: refusal 19: "),
        (b"P5\n3 2\n255\n", "ReportLength: refusal 19: "),
        (&longer, "BadReport: refusal 20: "),
        (&more, "ReportLength: refusal 19: "),
    ] {
        let output = report(&folder("refused-report", bytes), &["a.report"]);
        let said = String::from_utf8(output.stderr).unwrap();
        assert!(said.starts_with(&format!("report: a.report is not a report, {refusal}")), "{said}");
        assert_eq!((output.status.code(), output.stdout.len()), (Some(1), 0), "{said}");
    }
}

#[test]
fn what_cannot_be_read_or_told_is_an_error() {
    let folder = folder("unread", &reading());
    for (words, status, wrong) in [
        (&["b.report"][..], 1, "cannot read b.report: "),
        (&["."], 1, "cannot read .: "),
        (&[], 2, "the file's name is missing\nusage: report FILE\n"),
        (&[""], 2, "the file's name is missing\nusage: report FILE\n"),
        (&["a.report", "b"], 2, "b is one too many\nusage: report FILE\n"),
        (&["--help"], 2, "there is no option --help\nusage: report FILE\n"),
        (&["a.report", "--csv"], 2, "--csv is one too many\nusage: report FILE\n"),
    ] {
        let output = report(&folder, words);
        let said = String::from_utf8(output.stderr).unwrap();
        assert!(said.starts_with(&format!("report: {wrong}")), "{said}");
        assert_eq!((output.status.code(), output.stdout.len()), (Some(status), 0), "{words:?}");
    }
    let full = || Stdio::from(File::options().write(true).open("/dev/full").unwrap());
    let run = |words: &str| {
        let mut program = Command::new(env!("CARGO_BIN_EXE_report"));
        program.current_dir(&folder).arg(words);
        program
    };
    let output = run("a.report").stdout(full()).output().unwrap();
    let said = String::from_utf8(output.stderr).unwrap();
    let wrong = "report: a.report is a report, but its rows cannot be told: ";
    assert!(output.status.code() == Some(1) && said.starts_with(wrong), "{said}");
    assert_eq!(run("b.report").stderr(full()).status().unwrap().code(), Some(1));
}
