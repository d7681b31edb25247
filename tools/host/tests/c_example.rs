//! Compiles examples/read.c with the header and the archive, and runs it.

use std::path::Path;
use std::process::Command;

const EXPECTED: &str = "\
start 0: tag 0, turn 0, differing modules 1, first corner of the print (39.5, 19.5)
start 1: tag 0, turn 3, differing modules 1, first corner of the print (39.5, 19.5)
start 2: tag 0, turn 2, differing modules 1, first corner of the print (39.5, 19.5)
start 3: tag 0, turn 1, differing modules 1, first corner of the print (39.5, 19.5)
quad 0 of the sheet: refusal 0, tag 0, upper left (9.5, 57.5)
quad 1 of the sheet: refusal 0, tag 1, upper left (57.5, 57.5)
quad 2 of the sheet: refusal 0, tag 2, upper left (105.5, 57.5)
quad 3 of the sheet: refusal 0, tag 3, upper left (9.5, 9.5)
quad 4 of the sheet: refusal 0, tag 4, upper left (57.5, 9.5)
quad 5 of the sheet: refusal 0, tag 5, upper left (105.5, 9.5)
report of the sheet: 212 bytes, read again as 6 rows, the same
saddle point at (15.5, 15.5), from 12 samples
";

#[test]
fn the_c_example_reads_its_tag() {
    let host = Path::new(env!("CARGO_MANIFEST_DIR"));
    let program = Path::new(env!("CARGO_TARGET_TMPDIR")).join("read");
    let mut compile = Command::new("cc");
    compile.args(["-std=c99", "-Wall", "-Wextra", "-pedantic", "-Werror", "-I"]).arg(host.join("../../include"));
    compile.arg(host.join("examples/read.c")).arg("-o").arg(&program);
    compile.arg(Path::new(env!("MUOSLEAP_LIB_DIR_USED")).join("libmuosleap_c.a"));
    let Ok(compiled) = compile.output() else {
        println!("skipped: there is no C compiler `cc`");
        return;
    };
    assert!(compiled.status.success(), "{}", String::from_utf8_lossy(&compiled.stderr));
    let run = Command::new(&program).output().unwrap();
    assert_eq!(String::from_utf8_lossy(&run.stdout), EXPECTED);
}
