//! Runs the original functions and writes vectors for the programs `crates/vectors_*`.

#[cfg(original)]
fn main() {
    use oracle::{levels, painter, planes, quads, sheets, words};
    let crates = std::env::args().nth(1).expect("usage: oracle CRATES, the folder of the crates");
    let files = [words::files(), levels::files(), planes::files(), quads::files(), painter::files(), sheets::files()].concat();
    for file in files {
        file.write(&crates);
    }
}

#[cfg(not(original))]
fn main() {
    panic!("ORIGINAL has to name the folder with a copy of the original files when this is built: see tools/oracle/run");
}
