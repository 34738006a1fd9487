//! The choice of type: every width's in both versions, beside the least type, which was the choice before; and the tables of the least
//! type, which may have been taken in by then, under the check and the products.

use compare::bits::{self, bytes_for, MAX_WIDTH};
use compare::calls::Maker;
use compare::gaussian::{draw, drawn, is_type, least_type, type_of, Ieee1363};
use compare::inputs::{drawable, Source};
use compare::{field, proved};

/// The widths that have types 1 and 2 both.
const BOTH: [usize; 4] = [2, 18, 210, 378];

/// Every width: the type and the table of both versions.
#[test]
fn every_width_is_drawn_by_the_choice() {
    for m in 0..=MAX_WIDTH + 1 {
        assert_eq!(proved::type_of(m), type_of(m).map(|t| (t, 0)), "width {m}");
        let (mut ours, mut theirs) = (vec![0xA5; m * bytes_for(m)], vec![0xA5; m * bytes_for(m)]);
        assert_eq!(proved::draw(m, &mut ours), draw(m, &mut theirs).map(|t| (t, 0)), "width {m}");
        assert_eq!(ours, theirs, "width {m}");
    }
}

/// The choice in words; it differs from the least type at four widths alone, and at the first of them in nothing else.
#[test]
fn where_the_choice_is_not_the_least() {
    let mut differ = vec![];
    for m in (2..=MAX_WIDTH).filter(|&m| drawable(m)) {
        let (chosen, least) = (type_of(m).unwrap(), least_type(m));
        let by_words = if is_type(m, 2) {
            2
        } else if is_type(m, 1) {
            1
        } else {
            least
        };
        assert_eq!(chosen, by_words, "width {m}");
        if chosen != least {
            assert_eq!((chosen, least), (2, 1), "width {m}");
            assert_eq!(drawn(m, 2) == drawn(m, 1), m == 2, "width {m}");
            differ.push(m);
        }
    }
    assert_eq!(differ, BOTH);
}

/// Either basis is optimal, with 2m-1 ones. That of type 1 has a row of ones, so that its common list is the shorter one.
#[test]
fn lists_of_both_types() {
    for m in BOTH {
        let tables = [1, 2].map(|t| drawn(m, t));
        assert_eq!(tables.each_ref().map(|table| proved::ones(m, table)), [Ok((2 * m - 1, 0)); 2], "width {m}");
        let common = tables.each_ref().map(|table| proved::counts_common(m, table));
        let of_type_2 = if m == 2 { 3 } else { 2 * m * (m - 1) };
        assert_eq!(common, [Ok((m * m, m * m - 1)), Ok((m * m, of_type_2))], "width {m}");
    }
}

/// The tables of type 1 of these widths: both versions accept them and answer the calls of `earlier` alike, and the products are
/// IEEE 1363's for type 1.
#[test]
fn tables_of_the_least_type_stay_valid() {
    let (mut maker, mut source) = (Maker::new(15, 0), Source::new(16));
    for m in BOTH {
        let (table, by_standard) = (drawn(m, 1), Ieee1363::new(m, 1));
        assert_eq!(proved::check(m, &table), Ok((0, 0)), "width {m}");
        assert_eq!(field::check(m, &table), Ok(()), "width {m}");
        for _ in 0..if m < 100 { 50 } else { 3 } {
            let (a, b) = (source.bits(m), source.bits(m));
            let product = bits::pack(&by_standard.product(&a, &b));
            let (a, b, mut result) = (bits::pack(&a), bits::pack(&b), vec![0; bytes_for(m)]);
            proved::product(m, &table, &a, &b, &mut result).unwrap();
            assert_eq!(result, product, "width {m}");
            proved::product_reduced(m, &table, &a, &b, &mut result).unwrap();
            assert_eq!(result, product, "width {m}");
        }
        for mut ours in maker.earlier(m) {
            let mut theirs = ours.clone();
            assert_eq!(ours.proved(), theirs.by_coordinates(), "width {m}");
            assert_eq!(ours, theirs, "width {m}");
        }
    }
}
