//! Vectors of lists of quads. The original gathers tags in a map by id, where a later tag takes the place of an earlier one. So a list
//! is matched to the original where no id repeats, and follows document 02 alone where one does.

use crate::out::{File, Frame};
use crate::quads::{Picture, Quad, Reading, push_quad, push_reading, refused, started};
use std::collections::{HashMap, HashSet};

/// How many quads of a list read with an id. A refused quad gives none.
fn times(alone: &[Reading], id: usize) -> usize {
    alone.iter().filter(|row| row.0 == 0 && row.1 == id).count()
}

/// The rows of a list whose quads read so alone, in document 02's words: "in a list reading, every quad that shares its id with another
/// becomes a refused row", "18, given in rows only, after 13."
fn rows(alone: &[Reading]) -> Vec<Reading> {
    alone.iter().map(|&row| if row.0 == 0 && times(alone, row.1) > 1 { refused(18) } else { row }).collect()
}

/// Of each id the first quad, and the refused quads.
fn each_id_once(picture: &Picture, quads: &[Quad]) -> Vec<Quad> {
    let mut ids = HashSet::new();
    let kept = |quad: &&Quad| {
        let (refusal, id, ..) = picture.read(quad);
        refusal != 0 || ids.insert(id)
    };
    quads.iter().filter(kept).copied().collect()
}

/// Two lists of at most 20 quads of a picture: each id once, and, where an id repeats, the first quads as they are.
pub fn push_both(file: &mut File, picture: &Picture, quads: &[Quad]) {
    let once = each_id_once(picture, quads);
    let alone = push_list(file, picture, &once[..once.len().min(20)]);
    assert!(rows(&alone) == alone);
    if once.len() < quads.len() {
        push_list(file, picture, &quads[..quads.len().min(20)]);
    }
}

/// What the original keeps of a list is the last tag of each id, and nothing else.
fn check_gathered(picture: &Picture, quads: &[Quad], alone: &[Reading]) {
    let tags = alone.iter().filter(|row| row.0 == 0);
    let last: HashMap<u32, Quad> = tags.map(|tag| (tag.1 as u32, tag.4)).collect();
    assert!(picture.detector.gathered(&picture.image(), quads) == last);
}

/// A list of quads. Answers what each of them reads as alone. Where no id repeats, the rows are what the original says to each quad,
/// and their tags are all that the original gathers.
fn push_list(file: &mut File, picture: &Picture, quads: &[Quad]) -> Vec<Reading> {
    let alone: Vec<Reading> = quads.iter().map(|quad| picture.read(quad)).collect();
    check_gathered(picture, quads, &alone);
    let rows = rows(&alone);
    let frame = Frame::new().u8(2).u8(picture.number).u8(quads.len() as u8);
    file.push(rows.into_iter().fold(quads.iter().fold(frame, push_quad), push_reading));
    alone
}

/// The file of lists. Among them are lists of no quad, of one and of two, and ids met once, twice, three and four times.
pub fn lists() -> File {
    let mut file = File::new("vectors_tags/data/lists");
    let lists = [row_of_tags(&mut file), whole_family(&mut file)].concat();
    let met = |alone: &[Reading], n: usize| alone.iter().any(|row| row.0 == 0 && times(alone, row.1) == n);
    assert!((0..3).all(|length| lists.iter().any(|alone| alone.len() == length)));
    assert!((1..5).all(|n| lists.iter().any(|alone| met(alone, n))));
    file
}

/// Lists of clear quads that were read alone before, each with the refusals that its rows have by hand.
fn push_lists(file: &mut File, picture: &Picture, quads: &[Quad], lists: &[(&[Quad], &[u8])]) -> Vec<Vec<Reading>> {
    assert!(quads.iter().all(|quad| picture.is_clear(quad)));
    picture.push_readings(file, quads);
    let mut push = |&(list, refusals): &(&[Quad], &[u8])| {
        assert!(list.iter().all(|quad| quads.contains(quad)));
        let alone = push_list(file, picture, list);
        assert!(rows(&alone).iter().map(|row| &row.0).eq(refusals));
        alone
    };
    lists.iter().map(&mut push).collect()
}

/// A row of tags: 0; 7 as it is, with one misprinted module, with three, which are too many, and with four unsure ones; 7 + 256; and
/// the family's last one.
fn row_picture() -> (Picture, [Quad; 7]) {
    let mut picture = Picture::new(4, 64, 10, |_| 200);
    let codes = picture.detector.code_list().to_vec();
    let words = [codes[0], codes[7], codes[7] ^ 1, codes[7] ^ 7, codes[7], codes[263], codes[codes.len() - 1]];
    let tags = std::array::from_fn(|k| picture.draw(words[k], (1 + 9 * k, 1), 1, [50, 200]));
    // 125 is the middle: 116 and 134 are unsure; a bit keeps its value.
    for pixel in (0..4).map(|k| (2 + k) * 64 + 38 + k) {
        picture.pixels[pixel] = if picture.pixels[pixel] == 200 { 134 } else { 116 };
    }
    (picture, tags)
}

/// Lists of that row's tags, and of quads that are refused by themselves.
fn row_of_tags(file: &mut File) -> Vec<Vec<Reading>> {
    let (picture, tags) = row_picture();
    let [zero, seven, specked, spoilt, worn, other, last] = tags;
    let [zero1, zero2] = [1, 2].map(|start| started(&zero, start));
    let [seven1, seven2, seven3] = [1, 2, 3].map(|start| started(&seven, start));
    let [outside, dented] = [seven.map(|(x, y)| (x + 64.0, y)), [(0.25, 4.25), (63.0, 0.0), (63.0, 9.0), (63.0, 4.0)]];
    let [point, mirrored] = [[(3.0, 3.0); 4], [seven[3], seven[2], seven[1], seven[0]]];
    let lists: &[(&[Quad], &[u8])] = &[
        (&[], &[]),
        (&[seven], &[0]),
        (&[outside], &[9]),
        (&[seven, seven], &[18, 18]),
        (&[seven, seven2], &[18, 18]),
        (&[seven, specked], &[18, 18]),
        (&[seven, other], &[0, 0]),
        (&[point, point], &[11, 11]),
        (&[seven1, seven1, seven1], &[18, 18, 18]),
        (&[seven, seven1, seven2, seven3], &[18, 18, 18, 18]),
        // A quad that is refused by itself gives no id, whichever tag it lies on.
        (&[seven3, mirrored], &[0, 13]),
        (&[worn, seven2, spoilt], &[12, 0, 13]),
        (&[outside, specked, outside], &[9, 0, 9]),
        (&[worn, spoilt, dented, worn, spoilt, dented], &[12, 13, 10, 12, 13, 10]),
        (&[zero1, seven, spoilt, worn, other, last, outside, dented, point, mirrored], &[0, 0, 13, 12, 0, 0, 9, 10, 11, 13]),
        // Others stand between those that share an id.
        (&[seven3, outside, seven1, dented, worn, specked], &[18, 9, 18, 10, 12, 18]),
        (&[specked, zero, other, last, seven], &[18, 0, 0, 0, 18]),
        (&[zero, seven, zero1, specked, zero2, seven2], &[18, 18, 18, 18, 18, 18]),
        (&[last, seven, zero2, last, zero1, other, specked], &[18, 18, 18, 18, 18, 0, 18]),
        // A refused row has the number 0 for an id, and is no tag 0.
        (&[zero, outside, point, point], &[0, 9, 11, 11]),
        (&[point, zero2, dented, zero2, spoilt], &[11, 18, 10, 18, 13]),
        (&[zero, zero1, seven1, last, mirrored], &[18, 18, 0, 0, 13]),
    ];
    let others = [zero1, zero2, seven1, seven2, seven3, outside, dented, point, mirrored];
    push_lists(file, &picture, &[&tags[..], &others].concat(), lists)
}

/// All tags of T16H5, at one start after the other: each once; the first one again at the end; half of them twice, in the same order.
fn whole_family(file: &mut File) -> Vec<Vec<Reading>> {
    let mut picture = Picture::new(0, 91, 28, |_| 180);
    let codes = picture.detector.code_list().to_vec();
    let mut draw = |k: usize| picture.draw(codes[k], (1 + k % 10 * 9, 1 + k / 10 * 9), 1, [90, 180]);
    let quads: Vec<Quad> = (0..30).map(|k| started(&draw(k), k % 4)).collect();
    let first_again = [&quads[..], &quads[..1]].concat();
    let half_twice = [&quads[..15], &quads[..15]].concat();
    let mut refusals = [0; 31];
    (refusals[0], refusals[30]) = (18, 18);
    push_lists(file, &picture, &quads, &[(&quads, &[0; 30]), (&first_again, &refusals), (&half_twice, &[18; 30])])
}
