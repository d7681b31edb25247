//! Sheets, through the C interface: every pixel and every quad is that of a definition of its own (definition.rs), every tag is read
//! under its position at all starts, alone and in lists of the whole sheet, and what is refused changes nothing.

mod call;
mod definition;
#[path = "../numbers/mod.rs"]
mod numbers;
mod refused;
mod tables;

use call::{Call, Tags};
use muosleap::{FAMILIES, Family, Grid, Picture, Print, Refusal, Table, c};
use tables::{many, passing};

const PRINT: Print = Print { x: 2, y: 3, cell: 1, turn: 0, light: 210, dark: 30 };

/// Sides about the limits: of a side, of 587, 242, 35 and 30 codes, and of the largest sheet in use.
const SIDES: [(usize, usize); 19] = [
    (1, 1),
    (1, 32),
    (32, 1),
    (32, 32),
    (12, 12),
    (2, 3),
    (3, 2),
    (5, 6),
    (1, 30),
    (30, 1),
    (1, 31),
    (5, 7),
    (7, 5),
    (11, 22),
    (9, 27),
    (18, 32),
    (32, 18),
    (19, 31),
    (31, 19),
];

#[test]
fn grids_of_every_family() {
    for (k, (rows, columns)) in SIDES.into_iter().enumerate() {
        for (tags, family) in FAMILIES.into_iter().flat_map(|family| Tags::both(family).map(|tags| (tags, family))) {
            let (grid, turn) = (Grid { rows, columns, gap: 1 + k % 16 }, k as u8 % 4);
            let call = Call::fitting(tags, grid, Print { cell: 1 + k % 3, turn, ..PRINT }).padded(k % 5);
            if rows * columns <= family.codes().len() {
                call.is_painted_and_read();
            } else {
                call.is_refused(17);
            }
        }
    }
}

#[test]
fn grids_of_a_table_of_1024_codes() {
    let codes = many(8, 1_024);
    for hamming_distance in 1..=3 {
        let tags = Tags::Table(passing(Table { edge: 8, border: 1, hamming_distance, codes: &codes }));
        for (rows, columns) in SIDES {
            let print = Print { turn: hamming_distance, ..PRINT };
            Call::fitting(tags, Grid { rows, columns, gap: 2 }, print).padded(7).is_painted_and_read();
        }
    }
    // One code less, and one tag too many.
    let tags = Tags::Table(Table { edge: 8, border: 1, hamming_distance: 1, codes: &codes[1..] });
    Call::fitting(tags, Grid { rows: 32, columns: 32, gap: 1 }, PRINT).is_refused(17);
    Call::fitting(tags, Grid { rows: 31, columns: 32, gap: 1 }, PRINT).is_painted_and_read();
}

#[test]
fn the_largest_plane() {
    let codes = many(8, 1_024);
    let tags = Tags::Table(Table { edge: 8, border: 1, hamming_distance: 3, codes: &codes });
    let print = Print { x: 275, y: 0, cell: 10, ..PRINT };
    let call = Call::fitting(tags, Grid { rows: 32, columns: 32, gap: 2 }, print);
    assert_eq!((call.width, call.height), (4_096, 3_821));
    call.on(4_096, 4_096).padded(0).is_painted_and_read();
    Call { print: Print { x: 276, ..print }, ..call }.is_refused(17);
}

#[test]
fn sides_gaps_and_cells_at_their_limits() {
    for tags in Tags::both(Family::T36H11) {
        for (gap, rows, columns) in (1..=16).flat_map(|gap| [(gap, 1, 1), (gap, 2, 3)]) {
            Call::fitting(tags, Grid { rows, columns, gap }, PRINT).is_painted_and_read();
        }
        for cell in 1..=64 {
            Call::fitting(tags, Grid { rows: 2, columns: 1, gap: 1 }, Print { cell, ..PRINT }).is_painted_and_read();
        }
        let large = Call::fitting(tags, Grid { rows: 32, columns: 18, gap: 16 }, PRINT).on(1_000, 1_000);
        large.is_painted_and_read();
        for (gap, rows, columns) in [(0, 2, 2), (17, 2, 2), (0, 1, 1), (17, 1, 1)] {
            Call { grid: Grid { rows, columns, gap }, ..large }.is_refused(17);
        }
        for (rows, columns) in [(0, 1), (1, 0), (0, 0), (33, 1), (1, 33), (33, 33), (0, 33)] {
            Call { grid: Grid { rows, columns, gap: 1 }, ..large }.is_refused(17);
        }
    }
}

#[test]
fn an_exact_fit_and_a_pixel_less() {
    for (k, family) in FAMILIES.into_iter().enumerate() {
        for (tags, (rows, columns)) in Tags::both(family).into_iter().zip([(3, 4), (4, 3)]) {
            let print = Print { x: 3 * k, y: 7 - k, cell: 1 + k, ..PRINT };
            let fits = Call::fitting(tags, Grid { rows, columns, gap: 1 + 2 * k }, print).padded(8);
            let Call { width, height, .. } = fits;
            fits.is_painted_and_read();
            fits.on(width + 1, height + 1).is_painted_and_read();
            fits.on(width - 1, height).is_refused(17);
            fits.on(width, height - 1).is_refused(17);
            fits.on(width - 1, height + 100).padded(9).is_refused(17);
            fits.on(width + 100, height - 1).is_refused(17);
            Call { print: Print { x: print.x + 1, ..print }, ..fits }.is_refused(17);
            Call { print: Print { y: print.y + 1, ..print }, ..fits }.is_refused(17);
            Call { grid: Grid { gap: fits.grid.gap + 1, ..fits.grid }, ..fits }.is_refused(17);
        }
    }
}

#[test]
fn every_turn_and_shade() {
    for (tags, turn) in FAMILIES.into_iter().flat_map(Tags::both).flat_map(|tags| (0..4).map(move |turn| (tags, turn))) {
        for (light, dark, cell) in [(255, 0, 1), (50, 0, 2), (255, 205, 3), (130, 80, 4), (200, 20, 7)] {
            let print = Print { turn, light, dark, cell, ..PRINT };
            Call::fitting(tags, Grid { rows: 3, columns: 2, gap: cell }, print).padded(3).is_painted_and_read();
        }
    }
}

#[test]
fn filler_stays_at_every_pitch() {
    for tags in FAMILIES.into_iter().flat_map(Tags::both) {
        let call = Call::fitting(tags, Grid { rows: 2, columns: 3, gap: 2 }, Print { cell: 2, turn: 3, ..PRINT });
        (0..40).chain([call.width, 8_192 - call.width]).for_each(|filler| call.padded(filler).is_painted_and_read());
        call.padded(8_193 - call.width).is_refused(1);
    }
}

#[test]
fn numbers_beyond_the_quads_stay() {
    for tags in Tags::both(Family::T25H7) {
        let call = Call::fitting(tags, Grid { rows: 2, columns: 2, gap: 1 }, PRINT);
        (32..100).for_each(|numbers| _ = Call { numbers, ..call }.is_painted());
        (0..32).for_each(|numbers| Call { numbers, ..call }.is_refused(16));
    }
}

#[test]
fn private_tables_of_every_edge_and_border() {
    for (edge, hamming_distance) in (2..=8).flat_map(|edge| (1..=3).map(move |distance| (edge, distance))) {
        let codes = tables::made(edge, hamming_distance, 12);
        // Small squares have no table of a higher threshold.
        assert!(codes.len() >= 3 || hamming_distance > 1 && edge < 4, "{edge} {hamming_distance}: {codes:?}");
        for (border, turn) in (1..=4).flat_map(|border| (0..4).map(move |turn| (border, turn))).take(16 * codes.len()) {
            let tags = Tags::Table(passing(Table { edge, border, hamming_distance, codes: &codes }));
            let (rows, columns) = [(1, codes.len()), (codes.len(), 1)][turn as usize % 2];
            let print = Print { turn, cell: border as usize, ..PRINT };
            Call::fitting(tags, Grid { rows, columns, gap: 3 }, print).is_painted_and_read();
        }
    }
}

#[test]
fn a_table_that_fails_the_check_is_painted_too() {
    for (edge, codes) in [(1, &[0, 1, 1, 0][..]), (2, &[0, 15, 5, 5]), (4, &[0x231B, 0x7D01, 0x231B]), (8, &[0, u64::MAX])] {
        let table = Table { edge, border: 1, hamming_distance: 1, codes };
        assert_eq!(c::check_likeness(edge, 1, 1, codes), 7);
        for (border, turn) in (1..=4).flat_map(|border| (0..4).map(move |turn| (border, turn))) {
            let grid = Grid { rows: 1, columns: codes.len(), gap: 16 };
            Call::fitting(Tags::Table(Table { border, ..table }), grid, Print { turn, ..PRINT }).is_painted();
        }
    }
    // No table of edge 1 passes it.
    for codes in [&[0][..], &[1], &[0, 1]] {
        (1..=4).for_each(|border| assert_eq!(c::check_likeness(1, border, 1, codes), 7));
    }
}

/// Each tag of a sheet is the single painter's at its place: quad and pixels, and so its readings.
#[test]
fn each_tag_is_the_single_painters() {
    for (tags, turn) in FAMILIES.into_iter().flat_map(Tags::both).flat_map(|tags| (0..4).map(move |turn| (tags, turn))) {
        let table @ Table { edge, border, codes, .. } = tags.table();
        let call = Call::fitting(tags, Grid { rows: 3, columns: 4, gap: 2 }, Print { turn, cell: 3, ..PRINT }).padded(4);
        let Call { width, height, pitch, print: Print { x, y, cell, light, dark, .. }, .. } = call;
        let (sheet, quads) = call.is_painted();
        let (side, step) = (table.side() * cell, (table.side() + 2) * cell);
        for position in 0..12 {
            let (x, y) = (x + position % 4 * step, y + (2 - position / 4) * step);
            let (mut alone, mut quad) = (call.lent().0, [0.5; 8]);
            let word = codes[position];
            assert_eq!(
                c::paint_tag(&mut alone, width, height, pitch, edge, border, word, x, y, cell, turn, light, dark, &mut quad),
                0
            );
            assert_eq!(quad, quads[position]);
            let rows = (y..y + side).map(|row| row * pitch + x..row * pitch + x + side);
            assert!(rows.clone().all(|row| sheet[row.clone()] == alone[row]));
            for start in 0..4 {
                quad.rotate_left(2 * start);
                assert_eq!(call.read(&sheet, &quad), call.read(&alone, &quad));
            }
        }
    }
}

#[test]
fn the_crate_takes_any_number() {
    let mut picture = Picture::packed(vec![7; 30 * 30], 30, 30);
    let small = Grid { rows: 1, columns: 2, gap: 1 };
    for large in [33, 1 << 32, 1 << 63, usize::MAX] {
        for grid in [
            Grid { rows: large, ..small },
            Grid { columns: large, ..small },
            Grid { gap: large, ..small },
            Grid { rows: large, columns: large, gap: large },
        ] {
            assert_eq!(Family::T16H5.paint_sheet(&mut picture, &grid, &PRINT), Err(Refusal::Sheet));
            assert_eq!(Family::T16H5.table().paint_sheet(&mut picture, &grid, &PRINT), Err(Refusal::Sheet));
            assert!(grid.shape(&Family::T16H5.table(), usize::MAX).len() == usize::MAX && grid.tags() >= 2);
        }
    }
    assert_eq!(picture.bytes, [7; 900]);
    assert!(Family::T16H5.paint_sheet(&mut picture, &small, &PRINT).is_ok());
}
