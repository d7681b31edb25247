//! The wrappers themselves: every refusal can be met through them under its own name, and families and tables agree.

use muosleap::detector::{bit_code, rotate_bits};
use muosleap::image_util::{Saddles, gaussian_blur_f32, hessian_response, init_saddle_clusters, kernel, response_threshold};
use muosleap::painter::paint_tag;
use muosleap::{Cluster, FAMILIES, Family, Grid, Picture, Print, Quad, REFUSALS, Refusal, Report, Shape, Table};

const PRINT: Print = Print { x: 1, y: 1, cell: 2, turn: 0, light: 200, dark: 20 };
const GRID: Grid = Grid { rows: 1, columns: 1, gap: 1 };

/// A picture of 20 × 20 pixels.
fn picture(bytes: &[u8]) -> Picture<&[u8]> {
    Picture::packed(bytes, 20, 20)
}

/// A picture of T16H5's first tag, and its quad.
fn painted() -> (Vec<u8>, Quad) {
    let mut picture = Picture::packed(vec![0; 400], 20, 20);
    let quad = Family::T16H5.paint_tag(&mut picture, 0x231B, &PRINT).unwrap();
    (picture.bytes, quad)
}

fn quad(corner: f32) -> Quad {
    Quad::from([0.0, 0.0, corner, 0.0, corner, corner, 0.0, corner])
}

#[test]
fn every_refusal_is_met() {
    let (plane, tag) = painted();
    let read = |plane: &[u8], quad: Quad| Family::T16H5.try_decode_quad(&picture(plane), &quad).map(|_| ());
    let unsure: Vec<u8> = plane.iter().enumerate().map(|(k, &shade)| if k % 3 == 0 { 108 } else { shade }).collect();
    let other: Vec<u8> = (0..400).map(|k| if k % 20 < 10 { 0 } else { 255 }).collect();
    let flat = vec![0.5; 9];
    let square = Shape { width: 3, height: 3 };
    let (mut temp, mut out) = (flat.clone(), flat.clone());
    let clusters = |threshold: f32, worklist: usize| {
        init_saddle_clusters(&mut flat.clone(), square, threshold, &mut vec![0; worklist], &mut [])
    };
    let alike = Table { edge: 4, border: 2, hamming_distance: 2, codes: &[0x231B, 0x231B] };
    let met = [
        read(&plane[1..], tag),
        gaussian_blur_f32(&flat, square, &kernel(3.6), &mut temp, &mut out),
        hessian_response(&[f32::NAN; 9], square, &mut out),
        clusters(f32::INFINITY, 28).map(|_| ()),
        clusters(0.0, 27).map(|_| ()),
        rotate_bits(0, 0).map(|_| ()),
        alike.check_likeness(),
        read(&plane, quad(f32::NAN)),
        read(&plane, quad(19.5)),
        read(&plane, Quad::from([19.5 - 1.0 / 4_096.0; 8])),
        read(&[90; 400], tag),
        read(&unsure, tag),
        read(&other, tag),
        paint_tag(&mut Picture::packed([0; 400], 20, 20), 4, 2, 0x231B, &Print { cell: 3, ..PRINT }).map(|_| ()),
        bit_code(&[], 10, 3).map(|_| ()),
        Family::T16H5.try_decode_quads(&picture(&plane), &vec![tag; 1_025]).map(|_| ()),
        Family::T16H5.paint_sheet(&mut Picture::packed([0; 400], 20, 20), &Grid { gap: 0, ..GRID }, &PRINT).map(|_| ()),
        Family::T16H5.try_decode_quads(&picture(&plane), &[tag, tag.started(1)]).unwrap()[0].map(|_| ()),
        Report::read(&[1, 4][..]).map(|_| ()),
        Report::write(&[Err(Refusal::BadReport)]).map(|_| ()),
    ];
    let all: Vec<_> = REFUSALS.iter().map(|&refusal| Err(refusal)).collect();
    assert_eq!(met[..], all);
}

#[test]
fn refusals_have_numbers_and_texts_of_their_own() {
    for (k, &refusal) in REFUSALS.iter().enumerate() {
        assert_eq!(refusal.number() as usize, k + 1);
        assert_eq!(Refusal::try_from(refusal.number()), Ok(refusal));
        assert!(refusal.to_string().starts_with(&format!("refusal {}: ", k + 1)));
        assert!(REFUSALS.iter().all(|other| *other == refusal || other.reason() != refusal.reason()));
    }
    assert!(Refusal::try_from(0).is_err() && Refusal::try_from(REFUSALS.len() as u32 + 1).is_err());
}

#[test]
fn families_are_their_tables() {
    for family in FAMILIES {
        let table = family.table();
        let side = 2 * table.side() + 3;
        let mut picture = Picture::packed(vec![0; side * side], side, side);
        let mut again = picture.clone();
        // As many misprinted modules as are read.
        let (id, misprinted) = (table.codes.len() - 1, table.hamming_distance - 1);
        let word = table.codes[id] ^ ((1 << misprinted) - 1);
        let quad = paint_tag(&mut picture, table.edge, table.border, word, &PRINT).unwrap();
        assert_eq!(family.paint_tag(&mut again, word, &PRINT), Ok(quad));
        assert_eq!(picture.bytes, again.bytes);
        for start in 0..4 {
            let tag = family.try_decode_quad(&picture, &quad.started(start)).unwrap();
            assert_eq!((tag.id, tag.turn as usize, tag.differing), (id, (4 - start) % 4, misprinted));
            assert_eq!(table.try_decode_quad(&picture, &quad.started(start)), Ok(tag));
        }
        assert_eq!(table.check_likeness(), Ok(()));
    }
}

#[test]
fn a_sheet_of_one_tag_is_that_tag() {
    for family in FAMILIES {
        let (table, side) = (family.table(), 2 * family.table().side() + 2);
        let mut tag = Picture::packed(vec![0; side * side], side, side);
        let quad = family.paint_tag(&mut tag, table.codes[0], &PRINT).unwrap();
        let [mut sheet, mut lent] = [vec![1; side * side], vec![2; side * side]].map(|bytes| Picture::packed(bytes, side, side));
        assert_eq!(family.paint_sheet(&mut sheet, &GRID, &PRINT), Ok(vec![quad]));
        assert_eq!(table.paint_sheet(&mut lent, &GRID, &PRINT), Ok(vec![quad]));
        assert_eq!((&sheet.bytes, &lent.bytes), (&tag.bytes, &tag.bytes));
    }
}

#[test]
fn a_list_has_a_row_for_each_quad() {
    let (plane, tag) = painted();
    let read = |list: &[Quad]| {
        let rows = Family::T16H5.try_decode_quads(&picture(&plane), list);
        assert_eq!(Family::T16H5.table().try_decode_quads(&picture(&plane), list), rows);
        rows.unwrap()
    };
    let list = [quad(19.5), tag.started(2), quad(f32::INFINITY)];
    let alone: Vec<_> = list.iter().map(|quad| Family::T16H5.try_decode_quad(&picture(&plane), quad)).collect();
    assert!(alone[1].is_ok());
    assert_eq!(read(&list), alone);
    // The tag a second time.
    let twice = [Err(Refusal::RepeatedId), alone[0], Err(Refusal::RepeatedId), alone[2]];
    assert_eq!(read(&[tag, list[0], list[1], list[2]]), twice);
    assert_eq!(read(&[]), []);
}

#[test]
fn saddles_can_be_used_again() {
    let shape = Shape { width: 40, height: 30 };
    let picture: Vec<f32> = (0..shape.len()).map(|i| ((i % 40 < 17) == (i / 40 < 13)) as u8 as f32).collect();
    let mut saddles = Saddles::new(shape);
    let mut find = |picture: &[f32]| saddles.find(picture, &kernel(1.5)).map(|clusters| clusters.collect::<Vec<Cluster>>());
    let first = find(&picture).unwrap();
    assert_eq!(find(&vec![0.25; shape.len()]), Ok(vec![]));
    assert_eq!(find(&picture), Ok(first.clone()));
    let center = first[0].center().unwrap();
    assert_eq!((first.len(), center.x, center.y), (1, 16.5, 12.5));
    assert_eq!(find(&picture[1..]), Err(Refusal::PlaneSize));
    assert_eq!(response_threshold(&[0.0, -1.0], Shape { width: 2, height: 1 }), Ok(-0.05));
    assert_eq!(Cluster::from([1 << 24, 0, 1]).center(), Err(Refusal::Count));
}
