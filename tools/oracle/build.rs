//! Cuts the original functions, to the letter, out of a copy of the original files and writes them to `$OUT_DIR/original.rs`.
//! The folder of the copy is in the variable ORIGINAL. Parts that stand inside larger functions are cut out as text too, and wrapped.
//! Where ORIGINAL is not set, the library has no original functions, which crates that depend on it learn by `DEP_ORIGINAL_FOUND`.

use std::{env, fs, path::Path};

/// The text of a source file, with the cuts.
struct Source(String);

impl Source {
    fn read(folder: &str, name: &str) -> Source {
        let path = Path::new(folder).join(name);
        println!("cargo::rerun-if-changed={}", path.display());
        Source(fs::read_to_string(&path).unwrap_or_else(|e| panic!("{}: {e}", path.display())))
    }

    /// The lines from the only one that starts with `first` to the next one that is `last`.
    fn item(&self, first: &str, last: &str) -> String {
        let lines: Vec<&str> = self.0.lines().collect();
        let starts: Vec<usize> = (0..lines.len()).filter(|&i| lines[i].starts_with(first)).collect();
        assert_eq!(starts.len(), 1, "`{first}` stands {} times", starts.len());
        let end = (starts[0]..lines.len()).find(|&i| lines[i] == last);
        let end = end.unwrap_or_else(|| panic!("`{first}` has no end"));
        lines[starts[0]..=end].join("\n") + "\n"
    }

    /// A whole item at the margin: a function, a struct, an enum.
    fn whole(&self, first: &str) -> String {
        self.item(first, "}")
    }

    /// A whole method.
    fn method(&self, first: &str) -> String {
        self.item(first, "    }")
    }
}

/// The part of `text` from `first` on, up to and with `last`, each of which stands there once.
fn part(text: &str, first: &str, last: &str) -> String {
    assert_eq!(text.matches(first).count(), 1, "`{first}` has to stand once");
    let from = &text[text.find(first).unwrap()..];
    let end = from.find(last).unwrap_or_else(|| panic!("`{last}` is missing after `{first}`"));
    from[..end + last.len()].to_string()
}

/// The part of `text` from `first` on, before `last`.
fn part_before(text: &str, first: &str, last: &str) -> String {
    let with = part(text, first, last);
    with[..with.len() - last.len()].to_string()
}

/// `text` with each first text, which stands there once, replaced by its second.
fn replaced(text: &str, pairs: &[(&str, &str)]) -> String {
    pairs.iter().fold(text.to_string(), |text, (old, new)| {
        assert_eq!(text.matches(old).count(), 1, "`{old}` has to stand once");
        text.replace(old, new)
    })
}

/// `best_tag` with its answer widened by the number of differing bits that it found and dropped; its arithmetic is untouched.
fn best_tag_differing(best_tag: &str) -> String {
    replaced(
        best_tag,
        &[
            ("pub fn best_tag(", "pub fn best_tag_differing("),
            ("Option<(usize, usize)>", "Option<(usize, usize, u32)>"),
            ("return Some((best_idx, rotated));", "return Some((best_idx, rotated, *best_score));"),
        ],
    )
}

fn image_util(source: &Source) -> String {
    let blur = source.whole("pub fn gaussian_blur_f32(");
    let kernel = part_before(&blur, "let radius =", "let width =");
    let across = part_before(&blur, "let width =", "// Vertical pass");
    [
        "use faer::linalg::solvers::SolveLstsqCore;\nuse image::{GenericImage, GenericImageView};\n".to_string(),
        source.item("pub type GrayImagef32", &part(&source.0, "pub type GrayImagef32", ";")),
        source.whole("pub fn tag_affine("),
        source.whole("pub fn hessian_response("),
        source.whole("pub fn pixel_bfs("),
        format!("/// The weights that `gaussian_blur_f32` works out.\npub fn kernel(sigma: f32) -> Vec<f32> {{\n{kernel}\nkernel\n}}\n"),
        format!(
            "/// The plane between, as `gaussian_blur_f32` has it after its horizontal pass.\n\
             pub fn blurred_across(img: &GrayImagef32, sigma: f32) -> GrayImagef32 {{\n{kernel}\n{across}\n\
             let _ = out_raw;\ntemp\n}}\n"
        ),
        blur,
    ]
    .concat()
}

fn detector(source: &Source) -> String {
    let decode = source.method("    fn try_decode_quad(");
    let search = source.whole("pub fn best_tag(");
    [
        "use std::{collections::HashMap, ops::BitXor};\nuse super::{image_util, tag_families};\n".to_string(),
        "use super::image_util::GrayImagef32;\nuse image::{GenericImageView, GrayImage};\n".to_string(),
        source.whole("pub struct TagDetector"),
        source.whole("pub struct DetectorParams"),
        source.whole("impl DetectorParams"),
        source.whole("pub fn decode_positions("),
        source.whole("pub fn bit_code("),
        source.whole("const fn rotate_bits("),
        best_tag_differing(&search),
        search,
        source.whole("fn init_saddle_clusters("),
        format!("impl TagDetector {{\n{}\n{decode}\n{ACCESS}{}}}\n", source.method("    pub fn new("), gathered(source)),
        detector_parts(source),
        PRIVATE.to_string(),
    ]
    .concat()
}

/// The lines of `detect` that gather tags in a map by id, over quads that are given.
fn gathered(source: &Source) -> String {
    let detect = source.method("    pub fn detect(");
    let gather = part(&detect, "if let Some((tag_id, refined_arr))", "detected_tags.insert(tag_id as u32, refined_arr);");
    format!(
        "/// The tags of quads, as `detect` gathers them.\n\
         pub fn gathered(&self, img_grey: &GrayImage, quads: &[[(f32, f32); 4]]) -> HashMap<u32, [(f32, f32); 4]> {{\n\
         let mut detected_tags = HashMap::new();\nfor quad_points in quads.iter().map(|quad| quad.to_vec()) {{\n{gather}\n}}\n}}\n\
         detected_tags\n}}\n"
    )
}

/// Parts of larger functions, each wrapped as a function of its own.
fn detector_parts(source: &Source) -> String {
    let corner_test = part(&source.whole("pub fn decode_positions("), "if quad_pts.iter()", "return None;\n    }");
    let samples = part(&source.whole("pub fn bit_code("), "let brightness_vec", "return None;\n    }");
    let order = part(&source.method("    fn try_decode_quad("), "let mut new_q_pts", "try_into().unwrap();");
    let saddles = source.method("    pub fn refined_saddle_points(");
    let threshold = part(&saddles, "let min_response =", "let min_response_threshold = min_response * 0.05;");
    let centers = part(&saddles, "let saddle_cluster_centers", ".collect();");
    let quad = "quad_points: &[(f32, f32)]";
    [
        format!(
            "/// The corner test of `decode_positions`.\n\
             pub fn corners_inside(img_w: u32, img_h: u32, quad_pts: &[(f32, f32)]) -> Option<()> {{\n{corner_test}\nSome(())\n}}\n"
        ),
        format!(
            "/// The levels that `bit_code` reads, if all places are in the picture.\n\
             pub fn samples(img: &GrayImage, decode_pts: &[(f32, f32)]) -> Option<Vec<u8>> {{\n{samples}\nSome(brightness_vec)\n}}\n"
        ),
        format!("/// The answer's corners.\npub fn answer({quad}, rotation: usize) -> [(f32, f32); 4] {{\n{order}\nrefined_arr\n}}\n"),
        format!(
            "/// The threshold of the clusters.\n\
             pub fn response_threshold(hessian_response_mat: &GrayImagef32) -> f32 {{\n{threshold}\nmin_response_threshold\n}}\n"
        ),
        format!(
            "/// The centres of clusters.\n\
             pub fn centers(saddle_clusters: &[Vec<(u32, u32)>]) -> Vec<(f32, f32)> {{\n{centers}\nsaddle_cluster_centers\n}}\n"
        ),
    ]
    .concat()
}

/// Reads what is private in the original.
const ACCESS: &str = "
    pub fn edge(&self) -> u8 { self.edge }
    pub fn border(&self) -> u8 { self.border }
    pub fn hamming_distance(&self) -> u8 { self.hamming_distance }
    pub fn code_list(&self) -> &[u64] { &self.code_list }
    pub fn decode(&self, img_grey: &GrayImage, quad_points: &[(f32, f32)]) -> Option<(usize, [(f32, f32); 4])> {
        self.try_decode_quad(img_grey, quad_points)
    }
";

const PRIVATE: &str = "
pub fn turned(bits: u64, edge_bits: u8) -> u64 { rotate_bits(bits, edge_bits) }
pub fn clusters(h_mat: GrayImagef32, threshold: f32) -> Vec<Vec<(u32, u32)>> { init_saddle_clusters(h_mat, threshold) }
";

fn main() {
    println!("cargo::rerun-if-changed=build.rs");
    println!("cargo::rerun-if-env-changed=ORIGINAL");
    println!("cargo::rustc-check-cfg=cfg(original)");
    let Ok(folder) = env::var("ORIGINAL") else { return };
    assert!(Path::new(&folder).is_absolute(), "ORIGINAL has to be a path from the root, and is {folder}");
    let text = format!(
        "pub mod tag_families {{\n{}}}\npub mod image_util {{\n{}}}\npub mod detector {{\n{}}}\n",
        Source::read(&folder, "tag_families.rs").0,
        image_util(&Source::read(&folder, "image_util.rs")),
        detector(&Source::read(&folder, "detector.rs")),
    );
    fs::write(Path::new(&env::var("OUT_DIR").unwrap()).join("original.rs"), text).unwrap();
    println!("cargo::rustc-cfg=original");
    println!("cargo::metadata=FOUND=1");
}
