//! The check beside the independent version where its quick way and its search meet: every small table that passes 4 and 5, and
//! tables whose first difference comes late. Beside both the row sum, which was number 7.

use compare::bits::{added, places};
use compare::field::Table;
use compare::inputs::{accepted, all_symmetric, changed_pair, symmetric, Source, METERS};
use compare::{field, proved, Answer, Fault};

/// Document 01's rule 7, which the check no longer asks: the sum of all rows has only coordinate 0.
fn keeps_row_sum(m: usize, table: &[u8]) -> bool {
    let total = Table::new(m, table).rows.iter().fold(vec![false; m], |sum, row| added(&sum, row));
    places(&total) == [0]
}

/// The check of both, which must agree; 6 comes with i = 0, and what is accepted keeps the row sum.
fn checked(m: usize, table: &[u8]) -> Answer<()> {
    let ours = proved::check(m, table).map(|_| ());
    assert_eq!(ours, field::check(m, table), "width {m}, table {table:02x?}");
    assert!(ours.is_err() || keeps_row_sum(m, table), "width {m}, table {table:02x?}");
    if let Err(Fault { number: 6, first, .. }) = ours {
        assert_eq!(first, 0, "width {m}, table {table:02x?}");
    }
    ours
}

/// All tables of widths 2 to 6 that pass 4 and 5. That no difference comes first after m/2 is seen here, and proved nowhere.
#[test]
fn every_small_table() {
    let accepted = [2, 3, 4, 5, 6].map(|m| {
        let answers: Vec<_> = all_symmetric(m).map(|table| checked(m, &table)).collect();
        let last = answers.iter().filter_map(|answer| answer.err()).map(|fault| fault.second).max();
        assert_eq!(last, Some(m / 2), "width {m}");
        answers.iter().filter(|answer| answer.is_ok()).count()
    });
    assert_eq!(accepted, [1, 1, 2, 3, 4]);
}

/// The row sum doesn't stand for the triples: so many tables of widths 2 to 6 pass 4 and 5 and keep it, where 1, 1, 2, 3 and 4 are accepted.
#[test]
fn row_sum_for_triples() {
    let kept = [2, 3, 4, 5, 6].map(|m| all_symmetric(m).filter(|table| keeps_row_sum(m, table)).count());
    assert_eq!(kept, [1, 2, 8, 64, 1024]);
}

/// Drawn tables with one pair of rows changed, which differ first at a late j for some, and tables with random rows.
#[test]
fn changed_tables() {
    let mut source = Source::new(14);
    for m in [9, 14, 23, 29, 33].into_iter().chain(METERS) {
        let drawn = accepted(m);
        for d in (1..=m / 2).step_by(1 + m / 50) {
            let s = source.below(m);
            assert!(checked(m, &changed_pair(m, &drawn, d, s)).is_err(), "width {m}, row {d}");
        }
        for _ in 0..4 {
            checked(m, &symmetric(&mut source, m)).ok();
        }
    }
}
