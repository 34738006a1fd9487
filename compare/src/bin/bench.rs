//! The benchmark: the proved library beside the same source compiled by rustc, on the same inputs in one run.
//!
//!     ./library && cargo run --release --offline --manifest-path compare/Cargo.toml --bin bench
//!
//! Prints the lines of docs/benchmark.csv, in nanoseconds, the ratio proved / Rust last, and on standard error how long the product
//! takes by definition. With the argument `growth` it prints how each cost grows from width 65 to 571 instead, with `calls` the times at
//! 233, type 2, and at 571, type 10, those of accepting a list, and those of the check over more tables, which compare/before-after reads;
//! an earlier library that doesn't take a width or a count, or has no such call, is not timed there. Every time is of a whole call, with
//! every judgement in it; lent buffers are not cleared before a call.

use compare::gates::{self, Method, ACCEPTED_GATES, ACCEPTED_WIDTH};
use compare::inputs::{accepted, changed_pair, dense, with_unused, Source};
use compare::proved::packed as proved;
use compare::same::nb as same;
use compare::{bits, card, field, gaussian};
use std::hint::black_box;
use std::time::Instant;

/// How often a call is made so that it takes some 10 ms.
fn runs(call: &mut impl FnMut()) -> u64 {
    let mut runs = 1u64;
    loop {
        let start = Instant::now();
        (0..runs).for_each(|_| call());
        let taken = start.elapsed().as_micros() as u64;
        if taken >= 5_000 {
            return runs;
        }
        runs *= if taken < 500 { 8 } else { 2 };
    }
}

/// Nanoseconds that one of `runs` calls takes.
fn time(runs: u64, call: &mut impl FnMut()) -> f64 {
    let start = Instant::now();
    (0..runs).for_each(|_| call());
    start.elapsed().as_nanos() as f64 / runs as f64
}

/// The widths whose drawn tables stand for all: what is timed by definition, and what compare/before-after shows of every call.
const TYPED: [usize; 2] = [233, 571];

/// The other widths whose drawing compare/before-after shows: odd and even types, and the greatest p, that of 477; 18, 210 and 378, which
/// an earlier library draws by type 1.
const DRAWN: [usize; 11] = [18, 65, 130, 163, 210, 255, 283, 378, 409, 477, 540];

/// How often each of two calls is timed in a pass, and how many passes there are over all of them; the least time counts.
const TRIES: usize = 5;
const PASSES: usize = 5;

/// Nanoseconds that two calls take, run in turns.
fn times(mut ours: impl FnMut(), mut theirs: impl FnMut()) -> (f64, f64) {
    let counts = (runs(&mut ours), runs(&mut theirs));
    let mut least = (f64::INFINITY, f64::INFINITY);
    for _ in 0..TRIES {
        least = (least.0.min(time(counts.0, &mut ours)), least.1.min(time(counts.1, &mut theirs)));
    }
    least
}

fn shown(ns: f64) -> String {
    match ns {
        ns if ns < 1e3 => format!("{ns:.1} ns"),
        ns if ns < 1e6 => format!("{:.2} µs", ns / 1e3),
        ns => format!("{:.2} ms", ns / 1e6),
    }
}

/// The inputs of one column.
struct Case {
    label: String,
    m: usize,
    table: Vec<u8>,
    a: Vec<u8>,
    b: Vec<u8>,
    c: Vec<u8>,
}

impl Case {
    fn new(label: &str, m: usize, table: Vec<u8>) -> Case {
        let mut source = Source::new(m as u64);
        let mut even = source.bits(m);
        even[0] = even.iter().skip(1).filter(|&&b| b).count() % 2 == 1;
        Case {
            label: label.to_string(),
            m,
            table,
            a: bits::pack(&source.bits(m)),
            b: bits::pack(&source.bits(m)),
            c: bits::pack(&even),
        }
    }

    fn drawn(m: usize) -> Case {
        let mut table = vec![0; m * bits::bytes_for(m)];
        let t = gaussian::draw(m, &mut table).unwrap();
        Case::new(&format!("{m}, type {t}"), m, table)
    }

    fn dense(m: usize) -> Case {
        Case::new(&format!("{m}, dense"), m, dense(&mut Source::new(5), m, &Case::drawn(m).table))
    }
}

/// What a turn by the greatest count is called, which costs a remainder more than one below the width.
const ROUND: &str = "turn by 2^64-1";

/// Each call's name and its times, proved and Rust.
fn measure(case: &Case) -> Vec<(&'static str, f64, f64)> {
    let Case { m, table, a, b, c, .. } = case;
    let (m, width) = (*m, *m as u64);
    let mut result = vec![0; bits::bytes_for(m)];
    use compare::proved::{counts_common, counts_plain, counts_reduced};
    let [plain, reduced, common] = [counts_plain, counts_reduced, counts_common].map(|counts| {
        let (ands, xors) = counts(m, table).unwrap();
        ands + xors
    });
    let mut words = vec![0u32; 2 + 3 * plain.max(reduced).max(common) + m];
    let mut wires = vec![0u8; 2 * m + plain];
    let written = card::card(&field::Table::new(m, table));
    let mut room = vec![0u8; written.len()];
    let mut drawn = table.clone();
    let (mut result2, mut words2, mut wires2, mut room2, mut drawn2) =
        (result.clone(), words.clone(), wires.clone(), room.clone(), drawn.clone());
    let mut rows = vec![];
    macro_rules! row {
        ($name:expr, $ours:expr, $theirs:expr) => {{
            let (ours, theirs) = times(|| { black_box($ours); }, || { black_box($theirs); });
            rows.push(($name, ours, theirs));
        }};
    }
    row!("product", proved::product(m, table, a, b, &mut result), same::tables::nb_product(width, table, a, b, &mut result2));
    row!("reduced product", proved::product_reduced(m, table, a, b, &mut result), same::tables::nb_product_reduced(width, table, a, b, &mut result2));
    row!("check", proved::check(m, table), same::tables::nb_check(width, table));
    row!("inverse", proved::inverse(m, table, a, &mut result), same::tables::nb_inverse(width, table, a, &mut result2));
    #[cfg(constants)]
    row!("zero", proved::zero(m, &mut result), same::operands::nb_zero(width, &mut result2));
    #[cfg(constants)]
    row!("one", proved::one(m, &mut result), same::operands::nb_one(width, &mut result2));
    row!("turn", proved::turn(m, a, m / 3, &mut result), same::operands::nb_turn(width, a, width / 3, &mut result2));
    if compare::proved::turn(m, a, usize::MAX, &mut result).is_ok() {
        row!(ROUND, proved::turn(m, a, usize::MAX, &mut result), same::operands::nb_turn(width, a, u64::MAX, &mut result2));
    }
    row!("sum", proved::sum(m, a, b, &mut result), same::operands::nb_sum(width, a, b, &mut result2));
    row!("trace", proved::trace(m, a), same::operands::nb_trace(width, a));
    row!("solve", proved::solve(m, c, &mut result), same::operands::nb_solve(width, c, &mut result2));
    row!("plain list", proved::list_plain(m, table, &mut words), same::netlists::nb_list_plain(width, table, &mut words2));
    row!("reduced list", proved::list_reduced(m, table, &mut words), same::netlists::nb_list_reduced(width, table, &mut words2));
    row!("common list", proved::list_common(m, table, &mut words), same::netlists::nb_list_common(width, table, &mut words2));
    row!("counts", proved::counts_plain(m, table), same::netlists::nb_counts_plain(width, table));
    proved::list_plain(m, table, &mut words);
    let list = &words[..2 + 3 * plain + m];
    row!("run of the plain list", proved::run(m, list, a, b, &mut result, &mut wires), same::netlists::nb_run(width, list, a, b, &mut result2, &mut wires2));
    row!("draw", proved::draw(m, &mut drawn), same::drawing::nb_draw(width, &mut drawn2));
    row!("card write", proved::card_write(m, table, &mut room), same::cards::nb_card_write(width, table, &mut room2));
    row!("card read", proved::card_read(&written, &mut drawn), same::cards::nb_card_read(&written, &mut drawn2));
    rows
}

/// What accepting is called: of a list with as many gates as are accepted.
const ACCEPTING: &str = "accept of 2000 gates";

/// Its times: at the greatest width the reduced list of an accepted table, half of whose coordinates are 1, and gates that nothing reads.
fn accepting() -> (f64, f64) {
    let (m, table) = (ACCEPTED_WIDTH, accepted(ACCEPTED_WIDTH));
    let list = gates::list(&field::Table::new(m, &table), Method::Reduced);
    let unused = ACCEPTED_GATES - list[1] as usize;
    let list = with_unused(list, unused);
    assert!(compare::proved::accept(m, &table, &list).is_ok());
    times(|| { black_box(proved::accept(m, &table, &list)); }, || { black_box(same::netlists::nb_accept(m as u64, &table, &list)); })
}

/// Each call's name and its least times over the passes, case by case.
fn least(cases: &[Case]) -> Vec<Vec<(&'static str, f64, f64)>> {
    let mut all: Vec<_> = cases.iter().map(measure).collect();
    for _ in 1..PASSES {
        for (rows, case) in all.iter_mut().zip(cases) {
            for (row, (_, ours, theirs)) in rows.iter_mut().zip(measure(case)) {
                *row = (row.0, row.1.min(ours), row.2.min(theirs));
            }
        }
    }
    all
}

fn compared(cases: &[Case]) {
    println!("call,width,table,proved ns,Rust ns,proved / Rust");
    let all = least(cases);
    for (case, rows) in cases.iter().zip(&all) {
        for (name, ours, theirs) in rows {
            println!("{name},{},{ours:.1},{theirs:.1},{:.2}", case.label.replace(", ", ","), ours / theirs);
        }
    }
    let passes = (0..PASSES).map(|_| accepting());
    let (ours, theirs) = passes.fold((f64::INFINITY, f64::INFINITY), |least, pass| (least.0.min(pass.0), least.1.min(pass.1)));
    println!("{ACCEPTING},{ACCEPTED_WIDTH},dense,{ours:.1},{theirs:.1},{:.2}", ours / theirs);
    for (case, rows) in cases.iter().zip(&all).filter(|(case, _)| TYPED.contains(&case.m) && case.label.contains("type")) {
        let ours = rows[0].1;
        let mut result = vec![0; bits::bytes_for(case.m)];
        let mut by_definition = || { field::product(case.m, &case.table, &case.a, &case.b, &mut result).ok(); };
        let theirs = (0..TRIES * PASSES).map(|_| time(1, &mut by_definition)).fold(f64::INFINITY, f64::min);
        eprintln!("By definition (compare/src/field.rs), product at {}: {}; the proved call is {:.0} times as quick.", case.label, shown(theirs), theirs / ours);
    }
}

/// Whether the linked library takes a width.
fn takes(m: &usize) -> bool {
    compare::proved::trace(*m, &vec![0; bits::bytes_for(*m)]).is_ok()
}

/// Of the tables that differ from an accepted one in coordinate 0 of one row, and in the row that rule 5 ties to it, the one whose
/// first difference comes last, and its j.
fn latest(m: usize, table: &[u8]) -> (Vec<u8>, usize) {
    let changed = (1..=m / 2).map(|d| changed_pair(m, table, d, 0));
    changed.map(|t| { let j = compare::proved::check(m, &t).unwrap_err().second; (t, j) }).max_by_key(|(_, j)| *j).unwrap()
}

fn calls() {
    let [first, ..] = TYPED;
    for m in TYPED.into_iter().filter(takes) {
        let case = Case::drawn(m);
        let at = if m == first { String::new() } else { format!(" at {}", case.label.replace(',', ";")) };
        for (name, ours, theirs) in measure(&case) {
            println!("{name}{at},{ours:.1},{theirs:.1}");
        }
    }
    if cfg!(accept) {
        let (ours, theirs) = accepting();
        println!("{ACCEPTING} at {ACCEPTED_WIDTH}; dense,{ours:.1},{theirs:.1}");
    }
    for m in DRAWN.into_iter().filter(takes) {
        let Case { label, table: mut drawn, .. } = Case::drawn(m);
        let mut drawn2 = drawn.clone();
        let (ours, theirs) =
            times(|| { black_box(proved::draw(m, &mut drawn)); }, || { black_box(same::drawing::nb_draw(m as u64, &mut drawn2)); });
        println!("draw at {},{ours:.1},{theirs:.1}", label.replace(',', ";"));
    }
    let mut checks = vec![];
    for m in [65, 97, 130, 163, 194, 233, 255, 283, 409, 571].into_iter().filter(takes) {
        let Case { label, table, .. } = Case::drawn(m);
        let (late, j) = latest(m, &table);
        checks.push((label.clone(), m, table));
        checks.push((format!("{label}, refused with 6 at j = {j}"), m, late));
    }
    for m in [163, 233, 255, 571].into_iter().filter(takes) {
        let Case { label, table, .. } = Case::dense(m);
        checks.push((label, m, table));
    }
    for (label, m, table) in checks {
        let (ours, theirs) = times(|| { black_box(proved::check(m, &table)); }, || { black_box(same::tables::nb_check(m as u64, &table)); });
        println!("check at {},{ours:.1},{theirs:.1}", label.replace(',', ";"));
    }
}

fn growth() {
    println!("width,call,nanoseconds");
    let cases = [65, 81, 97, 113, 130, 146, 163, 178, 194, 210, 226, 233, 243, 255, 283, 309, 338, 371, 409, 443, 473, 509, 540, 571].map(Case::drawn);
    for (case, rows) in cases.iter().zip(least(&cases)) {
        for (name, ours, _) in rows.into_iter().filter(|(name, ..)| *name != ROUND) {
            println!("{},{name},{ours:.1}", case.m);
        }
    }
}

fn main() {
    match std::env::args().nth(1).as_deref() {
        Some("growth") => return growth(),
        Some("calls") => return calls(),
        _ => (),
    }
    let drawn = [163, 233, 255, 283, 409, 571].map(Case::drawn);
    compared(&drawn.into_iter().chain([233, 571].map(Case::dense)).collect::<Vec<_>>());
}
