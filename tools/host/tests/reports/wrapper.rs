//! The crate's own type for reports: what it takes and gives back, and under which names it refuses.

use crate::definition::Row;
use crate::numbers::Numbers;
use crate::readings::Reading;
use crate::{EIGHT, report_of};
use muosleap::reports::{LONGEST, MOST_ROWS};
use muosleap::{Refusal, Report, Tag};

/// Rows in the crate's types.
fn said(rows: &[Row]) -> Vec<Result<Tag, Refusal>> {
    Report::read(report_of(rows)).unwrap().rows().to_vec()
}

fn bits(row: &Result<Tag, Refusal>) -> Row {
    match row {
        Ok(tag) => {
            let corners = <[f32; 8]>::from(tag.corners).map(f32::to_bits);
            ([0, tag.id as u64, tag.turn.into(), tag.differing.into()], corners)
        }
        Err(refusal) => ([refusal.number().into(), 0, 0, 0], [0; 8]),
    }
}

#[test]
fn random_readings_go_both_ways() {
    let mut numbers = Numbers(7_300);
    for count in (0..60).chain([144, 1_023, 1_024]) {
        let rows = Reading::random(count, &mut numbers).said();
        let bytes = report_of(&rows);
        let read = Report::read(&bytes).unwrap();
        assert_eq!(read.rows().iter().map(bits).collect::<Vec<_>>(), rows);
        assert!(std::ptr::eq(read.bytes(), &bytes[..]), "borrowed bytes were copied");
        let written = Report::write(read.rows()).unwrap();
        assert_eq!((&written, written.bytes(), written.rows()), (&read, &bytes[..], read.rows()));
        assert_eq!(Report::read(bytes.clone()).as_ref(), Ok(&written));
        let owned: Report<'static> = read.clone().into_owned();
        assert_eq!((owned.bytes(), written.into_bytes()), (&bytes[..], bytes.clone()));
    }
}

#[test]
fn refusals_have_names() {
    let rows = said(&[([0, 5, 0, 0], EIGHT), ([18, 0, 0, 0], [0; 8])]);
    let changed = |change: fn(&mut Tag)| {
        let mut tag = rows[0].unwrap();
        change(&mut tag);
        Report::write(&[rows[1], Ok(tag)]).map(|_| ())
    };
    assert_eq!(changed(|tag| tag.id = 1_023), Ok(()));
    let changes: [fn(&mut Tag); 6] = [
        |tag| tag.id = 1_024,
        |tag| tag.id = usize::MAX,
        |tag| tag.turn = 4,
        |tag| tag.differing = 64,
        |tag| tag.corners.corners[2].y = f32::NAN,
        |tag| tag.corners.corners[0].x = -16_384.0,
    ];
    assert!(changes.into_iter().all(|change| changed(change) == Err(Refusal::BadReport)));
    assert_eq!(Report::write(&[rows[0], rows[1], rows[0]]), Err(Refusal::BadReport));
    assert_eq!(Report::write(&[Err(Refusal::ReportLength)]), Err(Refusal::BadReport));
    assert!(Report::write(&vec![rows[1]; MOST_ROWS]).is_ok());
    for count in [MOST_ROWS + 1, MOST_ROWS + 2, 100_000] {
        assert_eq!(Report::write(&vec![rows[0]; count]), Err(Refusal::ReportLength));
    }
    for (bytes, refusal) in [
        (&[][..], Refusal::BadReport),
        (&[0], Refusal::BadReport),
        (&[255], Refusal::BadReport),
        (&[1, 0], Refusal::BadReport),
        (&[0, 0, 0], Refusal::BadReport),
        (&[0, 4], Refusal::BadReport),
        (&[1, 4], Refusal::ReportLength),
        (&[255, 255, 16, 8], Refusal::ReportLength),
    ] {
        assert_eq!(Report::read(bytes), Err(refusal));
    }
}

#[test]
fn the_longest_report() {
    let rows: Vec<Row> = (0..1_024).map(|id| ([0, id, 1, 1], EIGHT)).collect();
    let mut bytes = report_of(&rows);
    assert_eq!(bytes.len(), LONGEST);
    assert_eq!(Report::read(&bytes).unwrap().rows().len(), MOST_ROWS);
    bytes.push(0);
    assert_eq!(Report::read(bytes), Err(Refusal::BadReport));
}

/// Floats that are equal and have other bits make another report.
#[test]
fn reports_differ_where_a_bit_does() {
    let [mut one, mut other] = [EIGHT; 2];
    (one[1], other[1]) = (0, 0x8000_0000);
    let [one, other] = [one, other].map(|corners| Report::read(report_of(&[([0, 1, 0, 0], corners)])).unwrap());
    assert!(one.rows() == other.rows() && one != other);
}
