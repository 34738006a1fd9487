//! Document 01's examples, and the published normal basis points, through the Rust version.

use compare::bits::{added, pack, turned, unpack, Bits};
use compare::field::{check, inverse, judge, ones, product, product_reduced};
use compare::gates::{counts, run, write, Method};
use compare::gaussian::{draw, drawn, is_type, type_of, Ieee1363};
use compare::inputs::METERS;
use compare::{bits, card, Fault};

const CARRIED: [&[u8]; 4] = [
    &[0x02, 0x03],
    &[0x02, 0x05, 0x06],
    &[0x02, 0x08, 0x0F, 0x04],
    &[0x02, 0x09, 0x18, 0x06, 0x14],
];

fn carried(m: usize) -> &'static [u8] {
    CARRIED[m - 2]
}

fn number<T: std::fmt::Debug>(answer: Result<T, Fault>) -> (u32, usize, usize) {
    let f = answer.unwrap_err();
    (f.number, f.first, f.second)
}

fn xors(m: usize, table: &[u8]) -> [usize; 3] {
    [Method::Plain, Method::Reduced, Method::Common].map(|method| {
        let (ands, xors) = counts(m, table, method).unwrap();
        assert_eq!(ands, m * m);
        xors
    })
}

#[test]
fn products() {
    for (m, a, b, c) in [(2, 1, 2, 3), (2, 1, 1, 2), (3, 1, 2, 5), (3, 3, 6, 4)] {
        let mut result = [0];
        product(m, carried(m), &[a], &[b], &mut result).unwrap();
        assert_eq!(result, [c]);
        product_reduced(m, carried(m), &[a], &[b], &mut result).unwrap();
        assert_eq!(result, [c]);
    }
}

#[test]
fn inverses_and_solutions() {
    let mut result = [0];
    assert_eq!(inverse(3, carried(3), &[1], &mut result), Ok(1));
    assert_eq!(result, [3]);
    assert_eq!(number(inverse(3, carried(3), &[0], &mut result)), (9, 0, 0));
    bits::solve(3, &[3], &mut result).unwrap();
    assert_eq!(result, [6]);
    assert_eq!(number(bits::solve(3, &[1], &mut result)), (10, 0, 0));
}

#[test]
fn checks() {
    assert_eq!(number(check(2, &[2, 0])), (6, 0, 1));
    assert_eq!(number(check(2, &[1, 3])), (4, 0, 0));
    assert_eq!(number(check(2, &[2, 1])), (5, 1, 0));
    let example = [0x02, 0x0E, 0x17, 0x1D, 0x07];
    assert_eq!(check(5, &example), Ok(()));
    assert_eq!(ones(5, &example), Ok(15));
    assert_eq!(xors(5, &example), [70, 45, 70]);
    assert_eq!(xors(4, carried(4)), [24, 18, 15]);
    assert_eq!(xors(5, carried(5)), [40, 30, 40]);
    for m in 2..=5 {
        assert_eq!(check(m, carried(m)), Ok(()));
    }
}

#[test]
fn limits() {
    for (m, passes) in [(1, false), (2, true), (571, true), (572, false)] {
        let a = vec![0; bits::bytes_for(m)];
        assert_eq!(bits::trace(m, &a).is_ok(), passes);
    }
    let mut result = [0];
    assert_eq!(bits::turn(5, &[1], 4, &mut result), Ok(()));
    assert_eq!(result, [16]);
    assert_eq!(bits::turn(5, &[1], 5, &mut result), Ok(()));
    assert_eq!(result, [1]);
    assert_eq!(number(draw(8, &mut [0; 8])), (17, 0, 0));
}

#[test]
fn reduced_list_of_width_two() {
    let words = [2, 7, 0, 0, 2, 0, 0, 3, 0, 1, 2, 0, 1, 3, 1, 5, 6, 1, 7, 8, 1, 4, 8, 9, 10];
    let mut out = [7; 25];
    assert_eq!(write(2, carried(2), Method::Reduced, &mut out), Ok((4, 3)));
    assert_eq!(out, words);
    assert_eq!(number(write(2, carried(2), Method::Reduced, &mut [7; 24])), (11, 0, 0));
    let (mut result, mut wires) = ([0], [0; 11]);
    run(2, &words, &[1], &[2], &mut result, &mut wires).unwrap();
    assert_eq!(result, [3]);
}

#[test]
fn drawn_tables() {
    for m in 2..=5 {
        let mut table = vec![0; m];
        draw(m, &mut table).unwrap();
        assert_eq!(table, carried(m));
    }
    assert!(is_type(18, 1) && is_type(18, 2));
    assert_eq!(type_of(18), Ok(2));
    for m in (2..=40).chain(METERS) {
        if m % 8 == 0 {
            assert!((1..40).all(|t| !is_type(m, t)));
            continue;
        }
        let t = type_of(m).unwrap();
        let mut table = vec![0; m * bits::bytes_for(m)];
        assert_eq!(draw(m, &mut table), Ok(t));
        let by_rule = judge(m, &table, &[], &[]).unwrap();
        let by_standard = Ieee1363::new(m, t);
        for seed in 0..if m <= 40 { 20 } else { 2 } {
            let (a, b) = (sample(m, seed), sample(m, seed + 1000));
            let product = by_rule.product(&a, &b);
            assert_eq!(product, by_standard.product(&a, &b), "width {m}");
            assert_eq!(product, by_rule.product_by_places(&a, &b), "width {m}");
        }
    }
}

fn sample(m: usize, seed: u64) -> Bits {
    let mut x = seed.wrapping_mul(0x9E37_79B9_7F4A_7C15) | 1;
    (0..m)
        .map(|_| {
            x ^= x << 13;
            x ^= x >> 7;
            x ^= x << 17;
            x >> 63 == 1
        })
        .collect()
}

#[test]
fn cards() {
    let mut table = [9; 4];
    let bytes = [1, 2, 1, 1, 2, 0, 0];
    assert_eq!(card::read(&bytes, &mut table), Ok(2));
    assert_eq!(table, [2, 3, 9, 9]);
    assert_eq!(
        card::report(&bytes),
        "width 2\nones 3\naccepted\nplain 4 4\nreduced 4 3\ncommon 4 3\n"
    );
    for (bytes, expected) in [
        (&[][..], 12),
        (&[0x81, 0x00], 13),
        (&[0x80, 0x01], 14),
        (&[0x01, 0x80], 12),
        (&[0x01, 0x80, 0x80], 13),
        (&[0x01, 0x01], 1),
    ] {
        assert_eq!(number(card::read(bytes, &mut [0; 4])), (expected, 0, 0));
    }
    assert_eq!(card::report(&[0; 65_537]), "refused 2\n");
}

/// A number of hexadecimal digits, of whose m bits the leftmost is coordinate 0.
fn hexadecimal(m: usize, digits: &str) -> Bits {
    let all: Bits = digits
        .chars()
        .flat_map(|c| {
            let d = c.to_digit(16).unwrap();
            (0..4).rev().map(move |k| d >> k & 1 == 1)
        })
        .collect();
    let mut bits = vec![false; m.saturating_sub(all.len())];
    bits.extend(&all[all.len().saturating_sub(m)..]);
    bits
}

#[test]
fn published_points() {
    let text = include_str!("../vectors/fips186-normal-basis.txt");
    let mut seen = 0;
    for line in text.lines().filter(|l| !l.starts_with('#')) {
        let fields: Vec<_> = line.split('|').map(str::trim).collect();
        let m: usize = fields[1].parse().unwrap();
        let t: usize = fields[2].parse().unwrap();
        let constant = |digits: &str| match digits {
            "0" => vec![false; m],
            "1" => vec![true; m],
            _ => hexadecimal(m, digits),
        };
        let (a, b) = (constant(fields[3]), constant(fields[4]));
        let (x, y) = (hexadecimal(m, fields[5]), hexadecimal(m, fields[6]));
        let table = judge(m, &drawn(m, t), &[], &[]).unwrap();
        let square = |v: &Bits| turned(v, 1);
        let left = added(&square(&y), &table.product(&x, &y));
        let right = added(&added(&table.product(&square(&x), &x), &table.product(&a, &square(&x))), &b);
        assert_eq!(left, right, "{}", fields[0]);
        assert_eq!(unpack(m, &pack(&x)), x);
        seen += 1;
    }
    assert_eq!(seen, 6);
}
