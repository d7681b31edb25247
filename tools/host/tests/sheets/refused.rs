//! What is refused: each reason alone, each two of them in their order, and numbers that would not fit into any arithmetic.

use crate::PRINT;
use crate::call::{Call, Tags};
use crate::tables::many;
use muosleap::{Family, Grid, Print, Table};

/// The order in which refusals are tested.
const ORDER: [u32; 5] = [1, 6, 14, 17, 16];

/// A refusal, and a change that makes it hold of a call that is accepted.
type Fault<'a> = (u32, Box<dyn Fn(&mut Call<'a>) + 'a>);

/// Writes a list of faults.
macro_rules! faults {
    ($($number:literal: $call:ident $change:expr;)*) => {
        [$(($number, Box::new(|$call: &mut Call<'a>| $change) as Box<dyn Fn(&mut Call<'a>) + 'a>)),*]
    };
}

/// Faults of either form of the call.
fn faults<'a>() -> Vec<Fault<'a>> {
    Vec::from(faults! {
        1: call call.width = 0;
        1: call call.height = 0;
        1: call call.width = 4_097;
        1: call call.height = usize::MAX;
        1: call call.pitch = call.width - 1;
        1: call call.pitch = 8_193;
        1: call call.pitch = usize::MAX;
        1: call call.bytes -= 1;
        1: call call.bytes += 2;
        14: call call.print.cell = 0;
        14: call call.print.cell = 65;
        14: call call.print.cell = usize::MAX;
        14: call call.print.turn = 4;
        14: call call.print.turn = 255;
        14: call call.print.light = 69;
        14: call (call.print.light, call.print.dark) = (call.print.dark, call.print.light);
        17: call call.grid.rows = 0;
        17: call call.grid.columns = 0;
        17: call call.grid.rows = 33;
        17: call call.grid.columns = 33;
        17: call (call.grid.rows, call.grid.columns) = (usize::MAX, usize::MAX);
        17: call (call.grid.rows, call.grid.columns) = (1 << 63, 2);
        17: call call.grid.gap = 0;
        17: call call.grid.gap = 17;
        17: call call.grid.gap = usize::MAX - 7;
        17: call call.print.x = PRINT.x + 1;
        17: call call.print.y = PRINT.y + 1;
        17: call call.print.x = usize::MAX;
        17: call call.print.y = usize::MAX - 18;
        16: call call.numbers = 0;
        16: call call.numbers -= 1;
    })
}

/// A family number that there is none of.
fn faults_by_number<'a>() -> Vec<Fault<'a>> {
    Vec::from(faults! {
        6: call call.tags = Tags::Family(5);
        6: call call.tags = Tags::Family(255);
        17: call (call.grid.rows, call.grid.columns) = (4, 8);
    })
}

/// Faults of a lent table, the codes of which are 1,024 and good ones of edge 8.
fn faults_of_table<'a>(codes: &'a [u64]) -> Vec<Fault<'a>> {
    let with = |table: Table<'a>| -> Box<dyn Fn(&mut Call<'a>) + 'a> { Box::new(move |call| call.tags = Tags::Table(table)) };
    let four = Family::T16H5.table();
    let tables = [
        Table { edge: 0, ..four },
        Table { edge: 9, ..four },
        Table { edge: 3, ..four },
        Table { edge: 255, ..four },
        Table { border: 0, ..four },
        Table { border: 5, ..four },
        Table { border: 255, ..four },
        Table { hamming_distance: 0, ..four },
        Table { hamming_distance: 65, ..four },
        Table { codes: &[], ..four },
        Table { codes: &[0x231B, 0x2EA5, 0x346A, 0x45B9, 0x1_0000], ..four },
        Table { edge: 8, codes, ..four },
        Table { edge: 7, codes: &codes[..1_024], ..four },
    ];
    let less = Table { codes: &four.codes[..3], ..four };
    tables.into_iter().map(|table| (6, with(table))).chain([(17, with(less))]).collect()
}

/// A call that is accepted, with four tags of eight modules.
fn good(tags: Tags) -> Call {
    let call = Call::fitting(tags, Grid { rows: 2, columns: 2, gap: 2 }, Print { light: 210, dark: 20, ..PRINT }).padded(5);
    call.is_painted_and_read();
    call
}

/// Each fault alone, and each two of them: the one that is tested first answers.
fn in_order<'a>(good: Call<'a>, faults: Vec<Fault<'a>>) {
    let place = |number: u32| ORDER.iter().position(|&this| this == number).unwrap();
    for (k, (number, change)) in faults.iter().enumerate() {
        let mut call = good;
        change(&mut call);
        call.is_refused(*number);
        for (other, change) in &faults[..k] {
            let mut call = call;
            change(&mut call);
            call.is_refused(ORDER[place(*number).min(place(*other))]);
        }
    }
}

#[test]
fn each_fault_and_each_two() {
    let mut codes = many(8, 1_025);
    codes[1_023] = u64::MAX;
    let [by_number, lent] = Tags::both(Family::T16H5).map(good);
    in_order(by_number, faults().into_iter().chain(faults_by_number()).collect());
    in_order(lent, faults().into_iter().chain(faults_of_table(&codes)).collect());
}

/// The refusal of these numbers, in arithmetic that holds them all, on a plane of these sides with an output that is long enough.
fn expected(call: &Call) -> u32 {
    let Grid { rows, columns, gap } = call.grid;
    let (table, print) = (call.tags.table(), call.print);
    if !(1..=64).contains(&print.cell) {
        return 14;
    }
    let ends = |start: usize, tags: usize, side: usize| {
        let cells = tags as u128 * table.side() as u128 + (tags as u128).saturating_sub(1) * gap as u128;
        start as u128 + cells * (print.cell as u128) < side as u128
    };
    let sides = (1..=32).contains(&rows) && (1..=32).contains(&columns) && (1..=16).contains(&gap);
    let enough = rows as u128 * columns as u128 <= table.codes.len() as u128;
    if sides && enough && ends(print.x, columns, call.width) && ends(print.y, rows, call.height) { 0 } else { 17 }
}

#[test]
fn any_number_may_be_given() {
    const MOST: usize = usize::MAX;
    let sides = [0, 1, 2, 4, 32, 33, 1 << 32, (1 << 61) + 1, 1 << 63, MOST];
    let gaps = [0, 1, 2, 16, 17, 1 << 60, 1 << 61, MOST - 8, MOST - 7, MOST];
    let places = [0, 1, 3, 23, 24, 1 << 32, 1 << 63, MOST - 40, MOST - 17, MOST - 7, MOST];
    let cells = [0, 1, 2, 64, 65, 1 << 58, 1 << 61, MOST];
    let mut met = [0; 18];
    for tags in Tags::both(Family::T16H5) {
        let good = Call { numbers: 240, ..good(tags).on(41, 33).padded(2) };
        let (plane, _) = good.lent();
        let (mut after, mut quads) = (plane.clone(), vec![0.0; 240]);
        let grids = sides.map(|rows| sides.map(|columns| gaps.map(|gap| Grid { rows, columns, gap })));
        let prints = places.map(|x| places.map(|y| cells.map(|cell| Print { x, y, cell, ..good.print })));
        for &grid in grids.as_flattened().as_flattened() {
            for &print in prints.as_flattened().as_flattened() {
                let call = Call { grid, print, ..good };
                let (answer, expected) = (call.answer(&mut after, &mut quads), expected(&call));
                assert_eq!(answer, expected, "{call:?}");
                met[answer as usize] += 1;
                if answer == 0 {
                    call.is_painted_and_read();
                    after.copy_from_slice(&plane);
                    quads.fill(0.0);
                }
            }
        }
        assert!(after == plane && quads == [0.0; 240], "a refused call wrote");
    }
    assert!(met[0] > 100 && met[14] > 100_000 && met[17] > 100_000, "{met:?}");
}
