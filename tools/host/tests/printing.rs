//! The sheet printer: its files hold the sheet that the library paints, pixel for pixel, and what it cannot print it says, and then
//! writes nothing, and leaves an existing file as it was.

use muosleap::{FAMILIES, Family, Grid, Picture, Print, Shape, Table, files};
use std::collections::BTreeMap;
use std::ffi::OsString;
use std::fs::{self, File};
use std::io;
use std::panic::catch_unwind;
use std::path::{Path, PathBuf};
use std::process::{Command, Output, Stdio};

/// An empty folder.
fn folder(name: &str) -> PathBuf {
    let folder = Path::new(env!("CARGO_TARGET_TMPDIR")).join(name);
    let _ = fs::remove_dir_all(&folder);
    fs::create_dir_all(&folder).unwrap();
    folder
}

/// The files of a folder, by name.
fn contents(folder: &Path) -> BTreeMap<OsString, Vec<u8>> {
    let files = fs::read_dir(folder).unwrap().map(|file| file.unwrap());
    files.map(|file| (file.file_name(), fs::read(file.path()).unwrap())).collect()
}

/// The printer in a folder, with the words of this line.
fn command(folder: &Path, line: &str) -> Command {
    let mut sheet = Command::new(env!("CARGO_BIN_EXE_sheet"));
    sheet.current_dir(folder).args(line.split_whitespace());
    sheet
}

/// Runs the printer in a folder, with the words of this line.
fn sheet(folder: &Path, line: &str) -> Output {
    command(folder, line).output().unwrap()
}

/// Runs it, and answers what it says.
fn accepted(folder: &Path, line: &str) -> String {
    let output = sheet(folder, line);
    assert!(output.status.success() && output.stderr.is_empty(), "{line}: {}", String::from_utf8_lossy(&output.stderr));
    String::from_utf8(output.stdout).unwrap()
}

/// Sides and pixels of a PGM file.
fn pgm(file: &[u8]) -> (Shape, Vec<u8>) {
    let mut lines = file.splitn(4, |&byte| byte == b'\n');
    let mut line = || lines.next().unwrap();
    assert_eq!(line(), b"P5");
    let sides: Vec<usize> = str::from_utf8(line()).unwrap().split(' ').map(|side| side.parse().unwrap()).collect();
    assert_eq!(line(), b"255");
    (Shape { width: sides[0], height: sides[1] }, line().to_vec())
}

/// A number of four bytes, high byte first.
fn long(bytes: &[u8]) -> usize {
    bytes[..4].iter().fold(0, |number, &byte| number << 8 | byte as usize)
}

/// The remainder that ends a chunk, bit by bit as the PNG specification has it.
fn remainder(bytes: &[u8]) -> usize {
    let mut register = u32::MAX;
    for bit in bytes.iter().flat_map(|byte| (0..8).map(move |k| byte >> k & 1)) {
        let out = register & 1 ^ bit as u32;
        register = register >> 1 ^ if out == 1 { 0xedb8_8320 } else { 0 };
    }
    !register as usize
}

/// The chunks of a PNG file: kind and data.
fn chunks(file: &[u8]) -> Vec<(String, &[u8])> {
    let (mut rest, mut chunks) = (file.strip_prefix(b"\x89PNG\r\n\x1a\n").unwrap(), Vec::new());
    while !rest.is_empty() {
        let end = 8 + long(rest);
        assert_eq!(remainder(&rest[4..end]), long(&rest[end..]));
        chunks.push((String::from_utf8(rest[4..8].to_vec()).unwrap(), &rest[8..end]));
        rest = &rest[end + 4..];
    }
    chunks
}

/// The data of a zlib stream of stored blocks.
fn inflate(stream: &[u8]) -> Vec<u8> {
    assert!(stream[0] & 15 == 8 && (stream[0] as usize * 256 + stream[1] as usize).is_multiple_of(31));
    let (mut rest, mut data, mut last) = (&stream[2..], Vec::new(), false);
    while !last {
        let [length, inverse] = [1, 3].map(|place| rest[place] as usize | (rest[place + 1] as usize) << 8);
        assert!(rest[0] < 2 && length ^ inverse == 0xffff);
        data.extend(&rest[5..5 + length]);
        (last, rest) = (rest[0] == 1, &rest[5 + length..]);
    }
    let sum = data.iter().fold(1, |sum, &byte| (sum + byte as usize) % 65_521);
    let sums = data.iter().rev().zip(1..).fold(data.len(), |sums, (&byte, times)| (sums + times * byte as usize) % 65_521);
    assert_eq!((long(rest), rest.len()), (sums << 16 | sum, 4));
    data
}

/// Sides and pixels of an 8-bit grey PNG file, and its pixels in a metre.
fn png(file: &[u8]) -> (Shape, Vec<u8>, usize) {
    let chunks = chunks(file);
    assert!(chunks.iter().map(|(kind, _)| kind.as_str()).eq(["IHDR", "pHYs", "IDAT", "IEND"]));
    let (head, size) = (chunks[0].1, chunks[1].1);
    assert_eq!((&head[8..], &size[..4], size[8], size.len()), (&[8, 0, 0, 0, 0][..], &size[4..8], 1, 9));
    let (width, height) = (long(head), long(&head[4..]));
    let data = inflate(chunks[2].1);
    assert!(data.len() == (width + 1) * height && data.chunks(width + 1).all(|row| row[0] == 0));
    (Shape { width, height }, data.chunks(width + 1).flat_map(|row| row[1..].to_vec()).collect(), long(size))
}

/// The sheet that the library paints, with a margin.
fn painted(table: &Table, grid: Grid, print: Print) -> (Shape, Vec<u8>) {
    let Shape { width, height } = grid.shape(table, print.cell);
    let shape = Shape { width: width + 2 * print.x, height: height + 2 * print.y };
    let mut picture = Picture::packed(vec![7; shape.len()], shape.width, shape.height);
    table.paint_sheet(&mut picture, &grid, &print).unwrap();
    (shape, picture.bytes)
}

#[test]
fn both_files_hold_the_sheet() {
    let folder = folder("both");
    for (k, family) in FAMILIES.into_iter().enumerate() {
        let (grid, margin) = (Grid { rows: 2 + k, columns: 7 - k, gap: 1 + k }, [1, 5, 20, 100, 9][k]);
        let print = Print { x: margin, y: margin, cell: 3 + k, turn: k as u8 % 4, light: 250 - k as u8, dark: 9 * k as u8 };
        let shape = format!("--family {family:?} --rows {} --columns {} --gap {}", grid.rows, grid.columns, grid.gap);
        let Print { cell, turn, light, dark, .. } = print;
        let line = format!("{shape} --cell {cell} --turn {turn} --light {light} --dark {dark} --margin {margin} --dpi 600");
        let expected = painted(&family.table(), grid, print);
        let told = ["a.pgm", "b.PNG"].map(|file| accepted(&folder, &format!("{file} {line}")));
        assert_eq!(pgm(&fs::read(folder.join("a.pgm")).unwrap()), expected);
        let (shape, pixels, meter) = png(&fs::read(folder.join("b.PNG")).unwrap());
        assert_eq!(((shape, pixels), meter), (expected, 23_622));
        let written = |file: &str| format!("Written: {file}, {} x {} pixels, 8-bit grey.", shape.width, shape.height);
        assert!(told[0].starts_with(&written("a.pgm")) && told[1].starts_with(&written("b.PNG")), "{told:?}");
        assert!(told[0].contains(&format!("to tag {} upper right.", grid.tags() - 1)), "{told:?}");
    }
    // Each file has replaced the one before, and there are no others.
    assert!(contents(&folder).into_keys().eq(["a.pgm", "b.PNG"]));
}

#[test]
fn what_is_left_out_has_a_value() {
    let folder = folder("left-out");
    let told = accepted(&folder, "--rows 2 sheet.png --family T25H9 --columns 3");
    let (grid, print) = (Grid { rows: 2, columns: 3, gap: 3 }, Print { x: 36, y: 36, cell: 12, turn: 0, light: 255, dark: 0 });
    let (shape, pixels, meter) = png(&fs::read(folder.join("sheet.png")).unwrap());
    assert_eq!(((shape, pixels), meter), (painted(&Family::T25H9.table(), grid, print), 11_811));
    let expected = "\
Written: sheet.png, 468 x 324 pixels, 8-bit grey.
2 rows of 3 tags of T25H9, 12 pixels a module. Tag 0 is lower left;
numbers rise along a row and then upward, to tag 5 upper right.
Before it was written, every tag was read under its own number from all four starts.
Printed at 300 dpi, not scaled: 39.6 x 27.4 mm in all, each tag 9.14 mm a side.
Along a row: gaps of 3.05 mm between the tags, 12.19 mm from a tag's left side to the next one's.
From row to row: gaps of 3.05 mm between the tags, 12.19 mm from a tag's lower side to the next one's.
";
    assert_eq!(told, expected);
}

#[test]
fn a_single_tag_has_no_next_one() {
    let folder = folder("single");
    let along = "Along a row: gaps of 0.20 mm between the tags, 1.02 mm from a tag's left side to the next one's.\n";
    let upward = "From row to row: gaps of 0.20 mm between the tags, 1.02 mm from a tag's lower side to the next one's.\n";
    for (rows, columns, told, steps) in [
        (1, 1, "1 row of 1 tag of T16H5, 1 pixel a module. It is tag 0.\n", ""),
        (1, 3, "1 row of 3 tags of T16H5, 1 pixel a module. Tag 0 is lower left;\n", along),
        (2, 1, "2 rows of 1 tag of T16H5, 1 pixel a module. Tag 0 is lower left;\n", upward),
    ] {
        let line = format!("a.png --family T16H5 --rows {rows} --columns {columns} --cell 1 --gap 2 --dpi 250");
        let said = accepted(&folder, &line);
        assert!(said.contains(told) && said.ends_with(&format!(" mm in all, each tag 0.81 mm a side.\n{steps}")), "{said}");
    }
}

#[test]
fn a_list_of_ones_own_is_printed() {
    let folder = folder("own");
    let codes = [0x231B, 0x2EA5, 0x346A, 0x45B9];
    fs::write(folder.join("codes.txt"), "231B\r\n\n 0x2ea5 \n000000000000346a\n45b9").unwrap();
    let table = Table { edge: 4, border: 3, hamming_distance: 1, codes: &codes };
    let line = "own.pgm --codes codes.txt --edge 4 --border 3 --threshold 1 --rows 2 --columns 2 --cell 2 --gap 16 --margin 1";
    let told = accepted(&folder, line);
    assert!(told.contains("2 rows of 2 tags of codes.txt, 2 pixels a module."), "{told}");
    let print = Print { x: 1, y: 1, cell: 2, turn: 0, light: 255, dark: 0 };
    let expected = painted(&table, Grid { rows: 2, columns: 2, gap: 16 }, print);
    assert_eq!(pgm(&fs::read(folder.join("own.pgm")).unwrap()), expected);
}

/// Runs the printer for each line, which names the file a.png or a.pgm. It has to end with this status, to say what is wrong, and to
/// write nothing: where there is no such file, and where there is one.
fn refused(folder: &Path, status: i32, lines: &[(&str, &str)]) {
    for exists in [false, true] {
        for file in ["a.png", "a.pgm"].map(|name| folder.join(name)) {
            let _ = fs::remove_file(&file);
            if exists {
                fs::write(file, "as before").unwrap();
            }
        }
        let before = contents(folder);
        for (line, wrong) in lines {
            let output = sheet(folder, line);
            let said = String::from_utf8(output.stderr).unwrap();
            assert!(said.starts_with(&format!("sheet: {wrong}")), "{line}: {said}");
            assert_eq!((output.status.code(), output.stdout.len()), (Some(status), 0), "{line}");
            assert_eq!(said.contains("\nusage: sheet FILE "), status == 2, "{line}: {said}");
            assert_eq!(contents(folder), before, "{line}");
        }
    }
}

#[test]
fn what_cannot_be_printed_is_said() {
    let folder = folder("refused");
    for (line, tags, refusal) in [
        ("a.png --family T16H5 --rows 2 --columns 2 --light 49", "4 tags of 30 codes on 300 x 300", 14),
        ("a.png --family T16H5 --rows 2 --columns 2 --dark 206", "4 tags of 30 codes on 300 x 300", 14),
        ("a.png --family T16H5 --rows 31 --columns 1 --gap 1 --cell 1 --margin 5", "31 tags of 30 codes on 18 x 288", 17),
    ] {
        let wrong = format!("cannot paint {tags} pixels, margin included: refusal {refusal}: ");
        refused(&folder, 1, &[(line, &wrong)]);
    }
    refused(&folder, 1, &[("no/folder/a.pgm --family T16H5 --rows 2 --columns 2", "cannot write no/folder/a.pgm: ")]);
}

#[test]
fn a_picture_that_is_too_large_is_told() {
    let folder = folder("large");
    for (line, pixels) in [
        ("a.png --family T36H11 --rows 16 --columns 16 --cell 64", "13504 x 13504"),
        ("a.png --family T16H5 --rows 1 --columns 2 --cell 1 --gap 1 --margin 2040", "4097 x 4088"),
        ("a.pgm --family T16H5 --rows 2 --columns 1 --cell 1 --gap 1 --margin 2040", "4088 x 4097"),
        ("a.pgm --codes list --edge 8 --border 4 --threshold 1 --rows 32 --columns 32 --cell 64 --margin 4096", "46912 x 46912"),
    ] {
        fs::write(folder.join("list"), "1").unwrap();
        let wrong =
            format!("a picture has at most 4096 pixels a side, and this one would have {pixels} pixels, margin included\n");
        refused(&folder, 1, &[(line, &wrong)]);
    }
    let told = accepted(&folder, "a.pgm --family T16H5 --rows 1 --columns 1 --cell 1 --margin 2044");
    assert!(told.starts_with("Written: a.pgm, 4096 x 4096 pixels, "), "{told}");
}

#[test]
fn a_file_stays_whole_where_writing_fails() {
    let folder = folder("failed");
    fs::write(folder.join("a.pgm"), "as before").unwrap();
    let before = contents(&folder);
    // No file may be longer than 1 KiB.
    let limited = ["-c", "ulimit -f 1 && trap '' XFSZ && exec \"$@\"", "sh", env!("CARGO_BIN_EXE_sheet")];
    let line = "a.pgm --family T16H5 --rows 2 --columns 2";
    let output = Command::new("sh").current_dir(&folder).args(limited).args(line.split_whitespace()).output().unwrap();
    let said = String::from_utf8(output.stderr).unwrap();
    assert!(output.status.code() == Some(1) && said.starts_with("sheet: cannot write a.pgm: File too large"), "{said}");
    assert_eq!(contents(&folder), before);
    // A folder has this name.
    fs::create_dir_all(folder.join("folder/a.pgm")).unwrap();
    let output = sheet(&folder.join("folder"), line);
    assert!(output.status.code() == Some(1) && output.stderr.starts_with(b"sheet: cannot write a.pgm: "));
    assert_eq!(fs::read_dir(folder.join("folder")).unwrap().count(), 1);
}

#[test]
fn words_that_cannot_be_told_are_an_error() {
    let folder = folder("words");
    let full = || File::options().write(true).open("/dev/full").unwrap();
    let (reader, closed) = io::pipe().unwrap();
    drop(reader);
    for (file, words) in [("full.pgm", Stdio::from(full())), ("closed.pgm", Stdio::from(closed))] {
        let output = command(&folder, &format!("{file} --family T16H5 --rows 2 --columns 2")).stdout(words).output().unwrap();
        let said = String::from_utf8(output.stderr).unwrap();
        let wrong = format!("sheet: {file} is written, but what it holds cannot be told: ");
        assert!(output.status.code() == Some(1) && said.starts_with(&wrong), "{said}");
        assert_eq!(pgm(&fs::read(folder.join(file)).unwrap()).0, Shape { width: 300, height: 300 });
    }
    for (line, status) in [("a.jpg", 2), ("no/folder/a.pgm --family T16H5 --rows 2 --columns 2", 1)] {
        assert_eq!(command(&folder, line).stderr(full()).status().unwrap().code(), Some(status));
    }
}

#[test]
fn files_have_limits() {
    for (width, height, pixels) in [(0, 0, 0), (0, 3, 0), (3, 0, 0), (2, 3, 5), (2, 3, 7), (1 << 63, 2, 0)] {
        assert!(catch_unwind(|| files::pgm(width, height, &vec![1; pixels])).is_err(), "{width} x {height}, {pixels}");
        assert!(catch_unwind(|| files::png(width, height, &vec![[1]; pixels], None)).is_err(), "{width} x {height}, {pixels}");
    }
    for (dpi, meter) in [(0, 1), (1, 39), (54_546_084, 2_147_483_622), (54_546_085, 0x7fff_ffff), (usize::MAX, 0x7fff_ffff)] {
        assert_eq!(png(&files::png(1, 1, &[[9]], Some(dpi))), (Shape { width: 1, height: 1 }, vec![9], meter));
    }
}

#[test]
fn a_bad_list_is_told() {
    let folder = folder("lists");
    for (text, wrong) in [
        ("", "these codes make no sheet: refusal 6: table with edge"),
        ("231b\n1231b", "these codes make no sheet: refusal 6: table with edge"),
        ("231b\n7d01", "these codes make no sheet: refusal 7: the table fails"),
        ("231b\n\n+5\n", "list, line 3: a code is a hexadecimal number of up to 16 digits, not +5"),
        ("0xg", "list, line 1: a code is a hexadecimal number of up to 16 digits, not 0xg"),
        ("10000000000000000", "list, line 1: a code is a hexadecimal number of up to 16 digits, not 10000000000000000"),
        ("0x0000000000000231b", "list, line 1: a code is a hexadecimal number of up to 16 digits, not 0x0000000000000231b"),
        ("0x", "list, line 1: a code is a hexadecimal number of up to 16 digits, not 0x"),
        ("0X231b", "list, line 1: a code is a hexadecimal number of up to 16 digits, not 0X231b"),
        ("231b 2ea5", "list, line 1: a code is a hexadecimal number of up to 16 digits, not 231b 2ea5"),
        ("231b", "cannot paint 2 tags of 1 code on 300 x 168 pixels, margin included: refusal 17: a sheet's side"),
    ] {
        fs::write(folder.join("list"), text).unwrap();
        let line = "a.pgm --codes list --edge 4 --border 2 --threshold 1 --rows 1 --columns 2";
        refused(&folder, 1, &[(line, wrong)]);
    }
    let line = "a.pgm --codes missing --edge 4 --border 2 --threshold 1 --rows 1 --columns 2";
    refused(&folder, 1, &[(line, "cannot read missing: ")]);
}

#[test]
fn a_bad_command_line_is_told() {
    let families = "--family takes one of T16H5, T25H7, T25H9, T36H11, T36H11B1, not ";
    let lines = [
        ("", "the file's name is missing"),
        ("--family T16H5 --rows 2 --columns 2", "the file's name is missing"),
        ("a.jpg --family T16H5 --rows 2 --columns 2", "the file's name has to end in .pgm or .png, not a.jpg"),
        ("png --family T16H5 --rows 2 --columns 2", "the file's name has to end in .pgm or .png, not png"),
        ("a.png b.png --family T16H5 --rows 2 --columns 2", "b.png is one too many"),
        ("a.png --rows 2 --columns 2", "--family is missing, or --codes"),
        ("a.png --family T16H6 --rows 2 --columns 2", &format!("{families}T16H6")),
        ("a.png --rows 2 --columns 2 --family", families),
        ("a.png --family T16H5 --columns 2", "--rows is missing"),
        ("a.png --family T16H5 --rows 2", "--columns is missing"),
        ("a.png --family T16H5 --rows 0 --columns 2", "--rows takes a number from 1 to 32, not 0"),
        ("a.png --family T16H5 --rows 2 --columns 33", "--columns takes a number from 1 to 32, not 33"),
        ("a.png --family T16H5 --rows 2 --columns 2 --gap 17", "--gap takes a number from 1 to 16, not 17"),
        ("a.png --family T16H5 --rows 2 --columns 2 --gap 0", "--gap takes a number from 1 to 16, not 0"),
        ("a.png --family T16H5 --rows 2 --columns 2 --cell 65", "--cell takes a number from 1 to 64, not 65"),
        ("a.png --family T16H5 --rows 2 --columns 2 --turn 4", "--turn takes a number from 0 to 3, not 4"),
        ("a.png --family T16H5 --rows 2 --columns 2 --light 256", "--light takes a number from 0 to 255, not 256"),
        ("a.png --family T16H5 --rows 2 --columns 2 --dark -1", "--dark takes a number from 0 to 255, not -1"),
        ("a.png --family T16H5 --rows 2 --columns 2 --margin 0", "--margin takes a number from 1 to 4096, not 0"),
        ("a.png --family T16H5 --rows 2 --columns 2 --dpi x", "--dpi takes a number from 1 to 9600, not x"),
        ("a.png --family T16H5 --rows 2 --columns 2 --dpi", "--dpi takes a number from 1 to 9600"),
        ("--rows --columns 2 a.png", "--rows takes a number from 1 to 32\n"),
        ("--family T16H5 --rows --columns 2 a.png", "--rows takes a number from 1 to 32\n"),
        ("--rows 2 --columns --family T16H5 a.png", "--columns takes a number from 1 to 32\n"),
        ("--family --rows 2 --columns 2 a.png", families),
        ("--codes --edge 4 --border 2 --threshold 1 --rows 2 --columns 2 a.png", "--codes takes the name of a file\n"),
        ("a.png --family T16H5 --rows 2 --columns 2 --rows 2", "--rows is one too many"),
        ("a.png --family T16H5 --rows 2 --columns 2 --first 3", "there is no option --first"),
        ("a.png --family T16H5 --codes list --rows 2 --columns 2", "--family and --codes exclude each other"),
        ("a.png --family T16H5 --edge 4 --rows 2 --columns 2", "--edge goes with --codes: a family has its own"),
        ("a.png --codes list --border 2 --threshold 1 --rows 2 --columns 2", "--edge is missing"),
        ("a.png --codes list --edge 9 --border 2 --threshold 1 --rows 2 --columns 2", "--edge takes a number from 1 to 8, not 9"),
        ("a.png --edge 4 --border 2 --threshold 1 --rows 2 --columns 2 --codes", "--codes takes the name of a file"),
    ];
    refused(&folder("command-line"), 2, &lines);
}
