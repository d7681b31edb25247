//! What is refused: each fault alone and each two of them, in the order that document 02 gives, and faults in every place.

use crate::calls::{reread, written};
use crate::definition::Row;
use crate::numbers::Numbers;
use crate::readings::{NO_CORNERS, Reading};
use crate::{EIGHT, report_of};

/// Two tags with a refused row between: 76 bytes.
fn rows() -> Vec<Row> {
    vec![([0, 7, 0, 0], EIGHT), ([12, 0, 0, 0], [0; 8]), ([0, 300, 3, 2], EIGHT)]
}

/// A fault: when it is tested, its number, and a change that makes it. No change undoes another one.
type Fault<Call> = (usize, u32, Box<dyn Fn(&mut Call)>);

fn fault<Call>(order: usize, number: u32, change: impl Fn(&mut Call) + 'static) -> Fault<Call> {
    (order, number, Box::new(change))
}

/// Each fault alone, and each two of them, made in either order: the one that is tested first answers.
fn in_order<Call: Clone>(good: Call, faults: &[Fault<Call>], answer: impl Fn(&Call) -> u32) {
    assert_eq!(answer(&good), 0);
    for (order, number, change) in faults {
        let mut call = good.clone();
        change(&mut call);
        assert_eq!(answer(&call), *number);
        for (other_order, other_number, other_change) in faults {
            let mut call = call.clone();
            other_change(&mut call);
            assert_eq!(answer(&call), if order <= other_order { *number } else { *other_number });
        }
    }
}

/// A call of the writer: the numbers that are lent, and the bytes of the output.
#[derive(Clone)]
struct Writing {
    reading: Reading,
    room: usize,
}

#[test]
fn faults_of_writing_and_each_two() {
    let mut faults = vec![
        fault(0, 19, |call: &mut Writing| call.reading.rows.resize(4 * 1_025, 0)),
        fault(0, 19, |call: &mut Writing| call.reading.rows.resize(4 * 1_025 + 3, 18)),
        fault(1, 20, |call: &mut Writing| call.reading.rows.push(0)),
        fault(1, 20, |call: &mut Writing| call.reading.corners.extend([0.0; 9])),
        fault(1, 20, |call: &mut Writing| call.reading.corners.truncate(16)),
        fault(1, 20, |call: &mut Writing| call.reading.corners.truncate(23)),
        fault(2, 19, |call: &mut Writing| call.room = 0),
        fault(2, 19, |call: &mut Writing| call.room = 1),
        fault(2, 19, |call: &mut Writing| call.room = 75),
    ];
    // An id that is too large or met before, a turn, a number of modules, a refusal, and numbers in a refused row.
    for (place, number) in [(1, 1_024), (9, 7), (9, u64::MAX), (2, 4), (11, 64), (0, 7), (0, 14), (4, 19), (5, 1), (6, 1), (7, 1)]
    {
        faults.push(fault(1, 20, move |call: &mut Writing| call.reading.rows[place] = number));
    }
    // Corners that 8 refuses, and bits in those of a refused row.
    for (place, bits) in [(0, 0x4680_0000), (7, 0xffc0_0000), (15, 1), (8, 0x8000_0000)] {
        faults.push(fault(1, 20, move |call: &mut Writing| call.reading.corners[place] = f32::from_bits(bits)));
    }
    let call = Writing { reading: Reading::from(&rows()[..]), room: 76 };
    in_order(call, &faults, |call| written(&call.reading, call.room).err().unwrap_or(0));
}

/// A call of the reader: the report, and how many numbers and corner numbers its outputs have.
#[derive(Clone)]
struct Rereading {
    report: Vec<u8>,
    rooms: [usize; 2],
}

#[test]
fn faults_of_reading_and_each_two() {
    let mut faults = vec![
        fault(0, 20, |call: &mut Rereading| call.report.truncate(0)),
        fault(0, 20, |call: &mut Rereading| call.report.truncate(1)),
        fault(2, 20, |call: &mut Rereading| call.report.truncate(75)),
        fault(2, 20, |call: &mut Rereading| call.report.truncate(2)),
        fault(3, 19, |call: &mut Rereading| call.rooms[0] = 0),
        fault(3, 19, |call: &mut Rereading| call.rooms[0] = 11),
        fault(3, 19, |call: &mut Rereading| call.rooms[1] = 23),
        fault(3, 19, |call: &mut Rereading| call.rooms = [0, 0]),
    ];
    // Spare bytes, where there are two bytes: else there would be two then.
    faults.push(fault(2, 20, |call: &mut Rereading| {
        let spare = if call.report.len() < 2 { 0 } else { 80 };
        call.report.extend(vec![16; spare]);
    }));
    // The number of rows.
    for number in [1_025u16, 1_279, 0xffff] {
        let change = move |call: &mut Rereading| {
            call.report.iter_mut().take(2).zip(number.to_le_bytes()).for_each(|(to, byte)| *to = byte);
        };
        faults.push(fault(1, 19, change));
    }
    // A map, an id of 1,024 or more, a corner; of the second row the map and the refusal; of the third one turn and modules.
    let first = [(2, 8), (2, 16), (2, 25), (4, 4), (8, 0x7f)];
    for (place, byte) in first.into_iter().chain([(37, 9), (38, 7), (38, 0), (38, 14), (42, 0), (42, 4), (43, 0), (43, 64)]) {
        let change = move |call: &mut Rereading| {
            call.report.iter_mut().skip(place).take(1).for_each(|to| *to = byte);
        };
        faults.push(fault(2, 20, change));
    }
    let call = Rereading { report: report_of(&rows()), rooms: [12, 24] };
    assert_eq!((call.report.len(), &call.report[37..44]), (76, &[16, 12, 15, 44, 1, 3, 2][..]));
    in_order(call, &faults, |call| reread(&call.report, call.rooms).err().unwrap_or(0));
}

/// Readings of several lengths, and places in each at which a row is put.
fn among_others() -> impl Iterator<Item = (Vec<Row>, usize)> {
    let mut numbers = Numbers(7_200);
    let readings = [1, 2, 5, 64, 1_024].map(|count| {
        // No row has the ids 1,000 and above: these are for the rows that are put there.
        let said = Reading::random(count, &mut numbers).said();
        let other = |row: Row| if row.0[0] == 0 && row.0[1] >= 1_000 { ([18, 0, 0, 0], [0; 8]) } else { row };
        said.into_iter().map(other).collect::<Vec<Row>>()
    });
    let places = |count: usize| [0, 1, count / 2, count - 1].into_iter().filter(move |place| *place < count);
    readings.into_iter().flat_map(move |rows| places(rows.len()).map(move |place| (rows.clone(), place)))
}

/// This row is refused wherever it stands, and with it the whole reading.
fn is_no_row(row: Row) {
    for (mut rows, place) in among_others() {
        rows[place] = row;
        assert_eq!(written(&Reading::from(&rows[..]), 37_890), Err(20), "{row:?} at {place} of {}", rows.len());
    }
}

/// Numbers whose low bits would fit, and above them a bit that has to be looked at.
fn large(low: u64, most: u64) -> impl Iterator<Item = u64> {
    (0..64).map(move |bit| low | 1 << bit).filter(move |number| *number > most)
}

#[test]
fn numbers_that_do_not_fit() {
    let tag = |id: u64, turn: u64, differing: u64| is_no_row(([0, id, turn, differing], EIGHT));
    (1_024..1_030).chain(large(1_001, 1_023)).chain([2_047, u64::MAX]).for_each(|id| tag(id, 0, 0));
    (4..9).chain(large(1, 3)).chain([255, u64::MAX]).for_each(|turn| tag(1_001, turn, 0));
    (64..70).chain(large(1, 63)).chain([255, u64::MAX]).for_each(|differing| tag(1_001, 0, differing));
    let refusals = (1..8).chain(14..18).chain(19..30).chain(large(8, 18)).chain([255, u64::MAX]);
    refusals.for_each(|refusal| is_no_row(([refusal, 0, 0, 0], [0; 8])));
}

#[test]
fn corners_that_8_refuses() {
    for (place, corner) in (0..8).flat_map(|place| NO_CORNERS.map(|corner| (place, corner))) {
        let mut corners = EIGHT;
        corners[place] = corner;
        is_no_row(([0, 1_000, 0, 0], corners));
    }
}

/// "with every other bit of the row and its corners zero"
#[test]
fn refused_rows_with_another_bit() {
    for refusal in [8, 9, 10, 11, 12, 13, 18] {
        for (place, bit) in (1..4).flat_map(|place| (0..64).map(move |bit| (place, bit))) {
            let mut row = ([refusal, 0, 0, 0], [0; 8]);
            row.0[place] = 1 << bit;
            assert_eq!(written(&Reading::from(&[row][..]), 100), Err(20));
        }
        for (place, bit) in (0..8).flat_map(|place| (0..32).map(move |bit| (place, bit))) {
            let mut row = ([refusal, 0, 0, 0], [0; 8]);
            row.1[place] = 1 << bit;
            assert_eq!(written(&Reading::from(&[row][..]), 100), Err(20));
        }
    }
    is_no_row(([18, 0, 0, 0], [0, 0, 0, 0, 0, 0, 0, 0x8000_0000]));
}

#[test]
fn an_id_in_two_rows() {
    for count in [2, 3, 64, 1_024] {
        let rows: Vec<Row> = (0..count).map(|id| ([0, id as u64, 0, 0], EIGHT)).collect();
        let report = report_of(&rows);
        for (one, other) in [(0, 1), (0, count - 1), (count - 2, count - 1), (count / 2 - 1, count / 2), (1, count - 1)] {
            let mut twice = rows.clone();
            twice[other].0 = [0, one as u64, 2, 1];
            let expected = if one == other { Ok(()) } else { Err(20) };
            assert_eq!(written(&Reading::from(&twice[..]), 37_890).map(|_| ()), expected);
            // The same in its bytes.
            let mut bytes = report.clone();
            bytes.copy_within(2 + 35 * one..5 + 35 * one, 2 + 35 * other);
            assert_eq!(reread(&bytes, [4 * count, 8 * count]).map(|_| ()), expected);
        }
    }
    // Refused rows have no id, and do not meet tag 0.
    let refused = ([9, 0, 0, 0], [0; 8]);
    report_of(&[refused, ([0, 0, 0, 0], EIGHT), refused, refused]);
}

#[test]
fn rows_and_corners_that_are_not_whole() {
    for count in [0, 1, 2, 36, 1_023, 1_024] {
        let refused = Reading::from(&vec![([18, 0, 0, 0], [0; 8]); count][..]);
        for (rows, corners) in (0..4).flat_map(|rows| (0..20).map(move |corners| (rows, corners))) {
            let (rows, corners) = (4 * count + rows, (8 * count + corners).saturating_sub(9));
            let mut reading = refused.clone();
            reading.rows.resize(rows, 0);
            reading.corners.resize(corners, 0.0);
            let whole = rows == 4 * count && corners == 8 * count;
            assert_eq!(written(&reading, 37_890).is_ok(), whole);
            assert_eq!(written(&reading, 0), Err(if whole { 19 } else { 20 }));
        }
    }
}

#[test]
fn outputs_that_are_too_short() {
    for rows in [&rows()[..], &rows()[..1], &rows()[1..2], &[]] {
        let (report, count) = (report_of(rows), rows.len());
        for room in 0..report.len() + 3 {
            assert_eq!(written(&Reading::from(rows), room).is_ok(), room >= report.len());
        }
        for (four, eight) in (0..4 * count + 3).flat_map(|four| (0..8 * count + 3).map(move |eight| (four, eight))) {
            let answer = reread(&report, [four, eight]);
            assert_eq!(answer.err(), (four < 4 * count || eight < 8 * count).then_some(19));
        }
    }
}
