//! The most stack that each call takes, over widths, tables and operands of every kind, beside the bounds that include/nb.h states.

use compare::bits::{bytes_for, MAX_WIDTH};
use compare::inputs::{accepted, changed_pair, dense, operand, symmetric, table, Source, METERS};
use compare::proved::packed as nb;
use compare::stack::taken;
use std::collections::BTreeMap;
use std::hint::black_box;

/// 16 is the greatest at which lists are accepted, 477 has the greatest type, 46.
const WIDTHS: [usize; 15] = [2, 3, 8, 16, 64, 65, 163, 233, 255, 256, 257, 283, 409, 477, 571];

/// Words of the longest list that is written here; for a longer one the room is too short, which is 11.
const WORDS: usize = 1 << 24;

/// The bound that the header states for each call: "Stack: BYTES" in the comment above it.
fn bounds() -> BTreeMap<&'static str, usize> {
    let mut stated = BTreeMap::new();
    let mut bound = None;
    for line in include_str!("../../include/nb.h").lines() {
        if line.starts_with("/*") {
            bound = None;
        }
        if let Some((_, rest)) = line.split_once("Stack: ") {
            let digits = rest.chars().take_while(|&c| c != '.').filter(|&c| c != ',');
            bound = Some(digits.collect::<String>().parse().unwrap());
        }
        if let Some((name, _)) = line.strip_prefix("uint64_t ").and_then(|call| call.split_once('(')) {
            stated.insert(name, bound.unwrap_or_else(|| panic!("no bound for {name}")));
        }
    }
    stated
}

/// The most bytes that each call took.
struct Most(BTreeMap<&'static str, usize>);

/// Notes what the named calls take.
macro_rules! take {
    ($most:expr, $($name:tt $call:expr;)*) => {
        $({
            let bytes = taken(|| { black_box($call); });
            let most = $most.0.entry($name).or_default();
            *most = bytes.max(*most);
        })*
    };
}

fn on_operands(most: &mut Most, m: usize, a: &[u8], b: &[u8], x: &mut [u8]) {
    take! { most,
        "nb_zero" nb::zero(m, x);
        "nb_one" nb::one(m, x);
        "nb_sum" nb::sum(m, a, b, x);
        "nb_trace" nb::trace(m, a);
        "nb_solve" nb::solve(m, a, x);
    }
    for k in [0, 1, m / 3, m.wrapping_sub(1), m, usize::MAX] {
        take! { most, "nb_turn" nb::turn(m, a, k, x); }
    }
}

fn on_tables(most: &mut Most, m: usize, t: &[u8], a: &[u8], b: &[u8], x: &mut [u8]) {
    let no_gates = [vec![m as u32, 0], vec![0; m]].concat();
    take! { most,
        "nb_check" nb::check(m, t);
        "nb_ones" nb::ones(m, t);
        "nb_product" nb::product(m, t, a, b, x);
        "nb_product_reduced" nb::product_reduced(m, t, a, b, x);
        "nb_inverse" nb::inverse(m, t, a, x);
        "nb_counts_plain" nb::counts_plain(m, t);
        "nb_counts_reduced" nb::counts_reduced(m, t);
        "nb_counts_common" nb::counts_common(m, t);
        "nb_accept" nb::accept(m, t, &no_gates);
        "nb_accept" nb::accept(m, t, &[]);
    }
}

/// The lists of a table, and each run and handed back as it is, with an output that is an input wire, with a gate outside the form beside
/// it, and with an output that is absent.
fn on_lists(most: &mut Most, m: usize, t: &[u8], a: &[u8], b: &[u8], words: &mut [u32]) {
    let mut x = vec![0; bytes_for(m)];
    for (name, write) in [
        ("nb_list_plain", nb::list_plain as fn(usize, &[u8], &mut [u32]) -> u64),
        ("nb_list_reduced", nb::list_reduced),
        ("nb_list_common", nb::list_common),
    ] {
        take! { most, name write(m, t, words); }
        if write(m, t, words) % 256 != 0 {
            continue;
        }
        let g = words[1] as usize;
        let list = &mut words[..2 + 3 * g + m];
        let mut wires = vec![0; 2 * m + g];
        let last = list.len() - 1;
        for (at, word) in [(0, m as u32), (last, 0), (2, 1), (last, u32::MAX)] {
            list[at] = word;
            take! { most,
                "nb_run" nb::run(m, list, a, b, &mut x, &mut wires);
                "nb_accept" nb::accept(m, t, list);
            }
        }
    }
}

/// A table drawn and written, and cards read: as they are, with the last byte missing, with one too many.
fn on_cards(most: &mut Most, m: usize, t: &[u8]) {
    let mut lent = t.to_vec();
    let mut card = vec![0; 4 + m * (m + 2)];
    take! { most,
        "nb_type" nb::type_of(m);
        "nb_draw" nb::draw(m, &mut lent);
        "nb_card_write" nb::card_write(m, t, &mut card);
        "nb_card_write" nb::card_write(m, t, &mut []);
    }
    let long = (nb::card_write(m, t, &mut card) >> 8) as usize;
    for length in [0, long.saturating_sub(1), long, long + 1] {
        take! { most, "nb_card_read" nb::card_read(&card[..length], &mut lent); }
    }
}

/// Tables that are accepted and such as each rule refuses, one of a wrong length and one with a bit at the width.
fn tables(source: &mut Source, all_accepted: &[Vec<u8>], m: usize) -> Vec<Vec<u8>> {
    let accepted = &all_accepted[m];
    let mut all = vec![vec![0; m * bytes_for(m)], vec![255; m * bytes_for(m)], vec![0; m], accepted.clone()];
    all.extend((0..3).map(|_| symmetric(source, m)));
    all.extend((0..3).map(|_| table(source, all_accepted, m)));
    all.push(changed_pair(m, accepted, 1, 0));
    all.push(changed_pair(m, accepted, m / 2, 0));
    if m <= 65 || METERS.contains(&m) {
        all.push(dense(source, m, accepted));
    }
    all
}

#[test]
fn most_stack() {
    let mut source = Source::new(15);
    let all_accepted: Vec<_> = (0..=MAX_WIDTH).map(|m| if WIDTHS.contains(&m) { accepted(m) } else { vec![] }).collect();
    let mut words = vec![0; WORDS];
    let mut most = Most(BTreeMap::new());
    for m in WIDTHS {
        for t in tables(&mut source, &all_accepted, m) {
            let (a, b, mut x) = (operand(&mut source, m), operand(&mut source, m), vec![0; bytes_for(m)]);
            let (zeros, ones) = (vec![0; bytes_for(m)], vec![255; bytes_for(m)]);
            for (width, a) in [(m, &a), (m, &zeros), (m, &ones), (m, &vec![]), (0, &a), (MAX_WIDTH + 1, &a)] {
                on_operands(&mut most, width, a, &b, &mut x);
                on_tables(&mut most, width, &t, a, &b, &mut x);
            }
            on_lists(&mut most, m, &t, &a, &b, &mut words);
            on_cards(&mut most, m, &t);
        }
    }
    let bounds = bounds();
    for (call, bytes) in &most.0 {
        println!("{call:20}{bytes:8}");
    }
    assert!(bounds.keys().eq(most.0.keys()), "measured are other calls than the header's");
    for (call, bytes) in most.0 {
        assert!(0 < bytes && bytes <= bounds[call], "{call} takes {bytes} bytes, stated are {}", bounds[call]);
    }
}
