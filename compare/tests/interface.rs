//! The proved library beside the independent version, through the C interface: every call, every fault number that it can
//! give, every buffer, on good and damaged inputs of every width.
//!
//! COMPARE_SEED and COMPARE_CALLS in the environment choose another seed and another number of calls.

use compare::bits::{self, bytes_for, MAX_WIDTH};
use compare::calls::{Call, Group, Maker};
use compare::gates::ACCEPTED_WIDTH;
use compare::inputs::{accepted, dense, drawable, sparse_symmetric, symmetric, Source, EDGES, METERS};
use compare::{field, proved, Answer, Pair};
use std::collections::{BTreeMap, BTreeSet};
use std::env;

/// The numbers each call can give beside 0. 7 and 8 are given by none.
const NUMBERS: [(&str, &[u32]); 23] = [
    ("check", &[1, 2, 3, 4, 5, 6]),
    ("ones", &[1, 2, 3]),
    ("product", &[1, 2, 3]),
    ("product_reduced", &[1, 2, 3, 4, 5]),
    ("inverse", &[1, 2, 3, 9]),
    ("zero", &[1, 2]),
    ("one", &[1, 2]),
    ("turn", &[1, 2, 3]),
    ("sum", &[1, 2, 3]),
    ("trace", &[1, 2, 3]),
    ("solve", &[1, 2, 3, 10]),
    ("counts_plain", &[1, 2, 3, 4, 5]),
    ("counts_reduced", &[1, 2, 3, 4, 5]),
    ("counts_common", &[1, 2, 3, 4, 5]),
    ("list_plain", &[1, 2, 3, 4, 5, 11]),
    ("list_reduced", &[1, 2, 3, 4, 5, 11]),
    ("list_common", &[1, 2, 3, 4, 5, 11]),
    ("run", &[1, 2, 3, 18]),
    ("accept", &[1, 2, 3, 4, 5, 18, 19, 20, 21]),
    ("type_of", &[1, 17]),
    ("draw", &[1, 2, 17]),
    ("card_write", &[1, 2, 3, 11]),
    ("card_read", &[1, 11, 12, 13, 14, 15, 16]),
];

/// The greatest width at which the independent check runs on any table: it takes m² products where a table is accepted.
const ANY_CHECK: usize = 60;

fn setting(name: &str, standard: u64) -> u64 {
    env::var(name).map_or(standard, |text| text.parse().unwrap())
}

/// The widths: mostly small, since the independent version takes m³ steps for a product.
fn some_width(source: &mut Source) -> usize {
    match source.below(100) {
        0 => [0, 1, MAX_WIDTH + 1, MAX_WIDTH + 2, 65_536 + 5, usize::MAX][source.below(6)],
        1..=79 => 2 + source.below(15),
        80..=97 => 2 + source.below(50),
        _ => EDGES[source.below(EDGES.len())],
    }
}

/// Calls made of both versions, and how often each gave each number.
struct Run {
    maker: Maker,
    met: BTreeMap<(&'static str, u32), usize>,
}

impl Run {
    fn new(seed: u64, harm: usize) -> Run {
        Run { maker: Maker::new(seed, harm), met: BTreeMap::new() }
    }

    fn calls(&self) -> usize {
        self.met.values().sum()
    }

    /// The independent answer. That the accepted tables of greater widths are accepted is known by how they are made;
    /// `tables_are_accepted` has some.
    fn independent(&self, call: &mut Call) -> Answer<Pair> {
        match call {
            Call::check { width, table } if (ANY_CHECK..=MAX_WIDTH).contains(width) && table == self.maker.accepted(*width) => Ok((0, 0)),
            _ => call.by_coordinates(),
        }
    }

    /// Both versions' answers and buffers after each call are the same. Gives the names and the numbers.
    fn hold(&mut self, calls: Vec<Call>) -> Vec<(&'static str, u32)> {
        let mut given = vec![];
        for mut ours in calls {
            let mut theirs = ours.clone();
            let (proved, independent) = (ours.proved(), self.independent(&mut theirs));
            let shown = |call: &Call| format!("{call:?}").chars().take(5_000).collect::<String>();
            assert!(proved == independent && ours == theirs, "proved {proved:?}: {}\nindependent {independent:?}: {}", shown(&ours), shown(&theirs));
            given.push((ours.name(), proved.map_or_else(|fault| fault.number, |_| 0)));
        }
        for name_and_number in &given {
            *self.met.entry(*name_and_number).or_default() += 1;
        }
        given
    }

    fn some_calls(&mut self) {
        let m = some_width(self.maker.source());
        let group = match self.maker.source().below(if m <= ANY_CHECK { 16 } else { 12 }) {
            0..=3 => Maker::operands,
            4 => Maker::accepts,
            5 | 6 | 14 | 15 => Maker::products,
            7 => Maker::inverses,
            8 | 12 | 13 => Maker::tables,
            9 => Maker::cards,
            10 => Maker::runs,
            _ => [Maker::draws, Maker::lists][self.maker.source().below(2)],
        };
        let calls = group(&mut self.maker, m);
        self.hold(calls);
    }

    /// Makes the calls of a group, good or damaged, until each that can succeed, or be refused, at the width has done so.
    fn until(&mut self, succeeds: bool, group: Group, m: usize) {
        self.maker.harm = if succeeds { 0 } else { 2 };
        let mut done = BTreeSet::new();
        loop {
            let calls = group(&mut self.maker, m);
            let due: BTreeSet<_> = calls.iter().map(Call::name).filter(|name| can(succeeds, name, m)).collect();
            done.extend(self.hold(calls).into_iter().filter(|(_, number)| (*number == 0) == succeeds).map(|(name, _)| name));
            if due.is_subset(&done) {
                return;
            }
        }
    }
}

/// Whether a call can succeed, or be refused, at a width.
fn can(succeeds: bool, name: &str, m: usize) -> bool {
    match name {
        _ if bits::judge_width(m).is_err() => !succeeds,
        "type_of" => succeeds == drawable(m),
        "draw" => !succeeds || drawable(m),
        "accept" => !succeeds || m <= ACCEPTED_WIDTH,
        _ => true,
    }
}

#[test]
fn random_calls() {
    let calls = setting("COMPARE_CALLS", 120_000) as usize;
    let mut run = Run::new(setting("COMPARE_SEED", 2026), 12);
    while run.calls() < calls {
        run.some_calls();
    }
    for (name, numbers) in NUMBERS {
        for number in numbers.iter().chain(&[0]) {
            assert!(run.met.contains_key(&(name, *number)), "{name} never gave {number}");
        }
    }
    for (name, number) in run.met.keys() {
        let listed = NUMBERS.iter().any(|(n, numbers)| n == name && (*number == 0 || numbers.contains(number)));
        assert!(listed, "{name} gave {number}");
    }
    println!("{} calls", run.calls());
}

/// Every width, and those beside: every call succeeds and is refused.
#[test]
fn every_width() {
    let mut run = Run::new(7, 0);
    for m in 0..=MAX_WIDTH + 1 {
        for (_, group) in Maker::GROUPS {
            if bits::judge_width(m).is_ok() {
                run.until(true, group, m);
            }
            run.until(false, group, m);
        }
    }
    println!("{} calls", run.calls());
}

/// Turns by counts below, at and above the width, of every width. By m an operand stays as it is.
#[test]
fn turns_by_any_count() {
    let mut run = Run::new(13, 0);
    for width in 2..=MAX_WIDTH {
        let mut bytes = || bits::pack(&run.maker.source().bits(width));
        let (a, result) = (bytes(), bytes());
        let counts = [0, 1, width - 1, width, width + 1, 2 * width - 1, 2 * width, 1 << 32, usize::MAX];
        let calls = counts.map(|k| Call::turn { width, a: a.clone(), k, result: result.clone() });
        let given = run.hold(calls.into());
        assert!(given.iter().all(|(_, number)| *number == 0), "width {width}: {given:?}");
        let mut same = result.clone();
        proved::turn(width, &a, width, &mut same).unwrap();
        assert_eq!(same, a, "width {width}");
    }
    println!("{} calls", run.calls());
}

/// The independent check accepts the tables that the others rest on.
#[test]
fn tables_are_accepted() {
    for m in (2..=48).chain(EDGES.into_iter().filter(|m| (49..=255).contains(m))).chain(METERS) {
        assert_eq!(field::check(m, &accepted(m)), Ok(()), "width {m}");
    }
}

/// The sizes that include/nb.h states: the longest card, and a list's words by its counts.
#[test]
fn sizes() {
    for m in [2, 5, 127, 128, 163, 255, 256, MAX_WIDTH] {
        let (ones, longest) = (bits::pack(&vec![true; m]).repeat(m), 3 + m * (m + 2));
        let length = proved::card_write(m, &ones, &mut vec![0; longest]).unwrap().0;
        assert!(length == longest || m < 128, "width {m}: {length} bytes");
    }
    // All rows but row 0 all ones: no list has more gates, and both counts fit their 28 bits.
    let m = MAX_WIDTH;
    let mut fullest = bits::pack(&vec![true; m]).repeat(m);
    fullest[..bytes_for(m)].fill(0);
    fullest[0] = 2;
    assert_eq!(proved::counts_plain(m, &fullest), Ok((m * m, m * m * m - m * m)));
    let mut source = Source::new(5);
    for m in [2, 3, 8, 33, MAX_WIDTH] {
        let t = if m == MAX_WIDTH { sparse_symmetric(&mut source, m) } else { symmetric(&mut source, m) };
        for (counts, list) in [
            (proved::counts_plain as fn(usize, &[u8]) -> Answer<Pair>, proved::list_plain as fn(usize, &[u8], &mut [u32]) -> Answer<Pair>),
            (proved::counts_reduced, proved::list_reduced),
            (proved::counts_common, proved::list_common),
        ] {
            let (ands, xors) = counts(m, &t).unwrap();
            let words = 2 + 3 * (ands + xors) + m;
            assert!(words <= 2 + 3 * m * m * m + m);
            assert_eq!(list(m, &t, &mut vec![0; words]), Ok((ands, xors)), "width {m}");
            assert_eq!(list(m, &t, &mut vec![0; words - 1]).unwrap_err().number, 11, "width {m}");
        }
    }
}

/// Products and inverses of operands half of whose coordinates are 1, under accepted tables and others.
#[test]
fn wide() {
    let mut run = Run::new(11, 0);
    for width in [127, 128, 129, 163, 192, 193, 233, 248, 255, 256, 257, 283, 320, 409, 512, 571] {
        let mut bytes = || bits::pack(&run.maker.source().bits(width));
        let (a, b, result) = (bytes(), bytes(), bytes());
        for table in [symmetric(run.maker.source(), width), accepted(width)] {
            let (a, b, result) = (a.clone(), b.clone(), result.clone());
            run.hold(vec![
                Call::inverse { width, table: table.clone(), a: a.clone(), result: result.clone() },
                Call::product { width, table: table.clone(), a: a.clone(), b: b.clone(), result: result.clone() },
                Call::product_reduced { width, table, a, b, result },
            ]);
        }
    }
}

/// Accepted tables half of whose coordinates are 1: those of other normal bases of the drawn ones' fields, and those found with polynomials.
/// They pass, and an operand times its inverse is one.
#[test]
fn dense_tables() {
    let mut source = Source::new(12);
    for m in [9, 64, 65, 255, 256, 320, 512].into_iter().chain(METERS) {
        let table = if drawable(m) { dense(&mut source, m, &accepted(m)) } else { accepted(m) };
        assert_eq!(proved::check(m, &table), Ok((0, 0)), "width {m}");
        let (a, mut inverse, mut product) = (bits::pack(&source.bits(m)), vec![0; bytes_for(m)], vec![0; bytes_for(m)]);
        proved::inverse(m, &table, &a, &mut inverse).unwrap();
        proved::product(m, &table, &a, &inverse, &mut product).unwrap();
        assert_eq!(product, bits::pack(&vec![true; m]), "width {m}");
    }
}
