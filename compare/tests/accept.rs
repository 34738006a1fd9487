//! Gate lists that a maker hands back: our own, shrunk ones, and damaged ones of every kind. Each is handed to the proved library and
//! to the independent version; at small widths both are held to the independent run over all operands.

use compare::bits::bytes_for;
use compare::gates::{self, counts_of, ACCEPTED_GATES, ACCEPTED_WIDTH};
use compare::inputs::{accepted, all_symmetric, change_in_form, dense, push_gates, symmetric, with_detour, with_unused, Source};
use compare::shrinker::shrunk;
use compare::{field, proved, Answer, Fault, Pair};
use std::collections::{BTreeMap, BTreeSet};

/// What a failure is told of.
fn shown(m: usize, table: &[u8], list: &[u32]) -> String {
    format!("width {m}, table {table:02x?}, list {list:?}").chars().take(2_000).collect()
}

/// The answer of both versions, which must agree.
fn judged(m: usize, table: &[u8], list: &[u32]) -> Answer<Pair> {
    let ours = proved::accept(m, table, list);
    assert_eq!(ours, gates::accept(m, table, list), "{}", shown(m, table, list));
    ours
}

fn refused(number: u32, first: usize) -> Answer<Pair> {
    Err(Fault { number, first, second: 0 })
}

fn number_and_first(answer: Answer<Pair>) -> (u32, usize) {
    answer.map_or_else(|fault| (fault.number, fault.first), |_| (0, 0))
}

/// A list that forms the product is accepted with its counts, or gets 19 where it has too many gates. Tells which.
fn is_accepted(m: usize, table: &[u8], list: &[u32]) -> bool {
    let short = list[1] as usize <= ACCEPTED_GATES;
    let due = if short { Ok(counts_of(list)) } else { refused(19, 0) };
    assert_eq!(judged(m, table, list), due, "{}", shown(m, table, list));
    short
}

/// The plain, reduced and common list that the proved library writes.
fn lists(m: usize, table: &[u8]) -> [Vec<u32>; 3] {
    let most = 2 + 3 * m * m * m + m;
    [proved::list_plain, proved::list_reduced, proved::list_common].map(|write| {
        let mut list = vec![0; most];
        let (ands, xors) = write(m, table, &mut list).unwrap();
        list.truncate(2 + 3 * (ands + xors) + m);
        list
    })
}

/// The words at these places changed to these.
fn changed(list: &[u32], words: &[(usize, u32)]) -> Vec<u32> {
    let mut list = list.to_vec();
    words.iter().for_each(|&(at, word)| list[at] = word);
    list
}

/// A list with one gate more, which no output reads.
fn with_gate(list: &[u32], gate: [u32; 3]) -> Vec<u32> {
    let mut list = list.to_vec();
    push_gates(&mut list, &[gate]);
    list
}

/// Tables of a width that pass 1 to 5: two that the check accepts, and others.
fn tables(source: &mut Source, m: usize) -> Vec<Vec<u8>> {
    let mut tables = vec![accepted(m)];
    tables.push(dense(source, m, &tables[0]));
    tables.extend((0..4).map(|_| symmetric(source, m)));
    tables
}

/// A table of a small width with all operands and their products, which the run of a list is held to.
struct Small {
    m: usize,
    table: Vec<u8>,
    products: Vec<[u8; 3]>,
}

impl Small {
    fn new(m: usize, table: Vec<u8>) -> Small {
        let all = || 0..1 << m;
        let product = |(a, b)| {
            let mut result = [0];
            field::product(m, &table, &[a], &[b], &mut result).unwrap();
            [a, b, result[0]]
        };
        let products = all().flat_map(|a| all().map(move |b| (a, b))).map(product).collect();
        Small { m, table, products }
    }

    /// The least coordinate that the run gets wrong, over all operands; 18 where it doesn't run.
    fn wrong_when_run(&self, list: &[u32]) -> Answer<Option<usize>> {
        let (mut wrong, mut result, mut wires) = (0, [0], vec![0; 2 * self.m + list[1] as usize]);
        for [a, b, product] in &self.products {
            gates::run(self.m, list, &[*a], &[*b], &mut result, &mut wires)?;
            wrong |= result[0] ^ product;
        }
        Ok((0..self.m).find(|r| wrong >> r & 1 == 1))
    }

    /// The answer is what the run shows: success where it gives all products, 21 with the least wrong coordinate, 18 where it doesn't
    /// run. A list that runs may also be outside the form.
    fn judged(&self, list: &[u32]) -> Answer<Pair> {
        let answer = judged(self.m, &self.table, list);
        let due = match self.wrong_when_run(list) {
            Err(fault) => Err(fault),
            Ok(_) if answer == refused(20, 0) => answer,
            Ok(Some(r)) => refused(21, r),
            Ok(None) => Ok(counts_of(list)),
        };
        assert_eq!(answer, due, "{}", shown(self.m, &self.table, list));
        answer
    }
}

/// Our own lists, as they are, with gates that are added twice, and with one that nothing reads.
#[test]
fn own_lists() {
    let mut source = Source::new(21);
    let mut short = BTreeSet::new();
    for m in 2..=ACCEPTED_WIDTH {
        for table in tables(&mut source, m) {
            for list in lists(m, &table) {
                short.insert(is_accepted(m, &table, &list));
                let detours = (0..4).fold(list.clone(), |list, _| with_detour(&mut source, list));
                is_accepted(m, &table, &detours);
                is_accepted(m, &table, &with_unused(list, 1));
            }
        }
    }
    assert_eq!(short.len(), 2, "some lists are too long, others are not");
}

/// Shrunk lists are accepted, and no longer than before; the two accepted tables of some widths show how much shorter.
#[test]
fn shrunk_lists() {
    let mut source = Source::new(22);
    for m in 2..=ACCEPTED_WIDTH {
        for (n, table) in tables(&mut source, m).iter().enumerate() {
            let saved = lists(m, table).map(|list| {
                let shorter = shrunk(&list);
                is_accepted(m, table, &shorter);
                is_accepted(m, table, &shrunk(&shorter));
                let (before, after) = (counts_of(&list).1, counts_of(&shorter).1);
                assert!(after <= before, "width {m}, table {table:02x?}");
                format!("{before} to {after}")
            });
            if n < 2 && [5, 11, 16].contains(&m) {
                let [plain, reduced, common] = saved;
                println!("width {m}: XORs of the plain list {plain}, reduced {reduced}, common {common}");
            }
        }
    }
}

/// A table accepts its own lists alone: all tables of a width that pass 1 to 5, and each one's lists under each.
#[test]
fn lists_of_other_tables() {
    for m in 2..=4 {
        let all: Vec<_> = all_symmetric(m).collect();
        for (n, written) in all.iter().enumerate() {
            for list in lists(m, written) {
                for (k, table) in all.iter().enumerate() {
                    let answer = judged(m, table, &list);
                    assert_eq!(answer.is_ok(), n == k, "width {m}, table {table:02x?}, list of {written:02x?}: {answer:?}");
                }
            }
        }
    }
}

/// Every word of a list changed to every wire, and to some that are none; a kind likewise.
#[test]
fn every_word_changed() {
    for m in 2..=4 {
        let small = Small::new(m, accepted(m));
        for list in lists(m, &small.table) {
            let mut met = BTreeSet::new();
            let wires = 2 * list[0] + list[1];
            for (at, word) in (2..list.len()).flat_map(|at| (0..=wires).chain([u32::MAX]).map(move |word| (at, word))) {
                met.insert(number_and_first(small.judged(&changed(&list, &[(at, word)]))));
            }
            let due = [(0, 0), (18, 0), (20, 0)].into_iter().chain((0..m).map(|r| (21, r)));
            assert!(met.into_iter().eq(due), "width {m}");
        }
    }
}

/// Lists changed in several places, most of them so that they stay of the form, under tables that pass 1 to 5.
#[test]
fn many_words_changed() {
    let mut source = Source::new(23);
    let mut met = BTreeMap::new();
    for m in 2..=5 {
        for small in tables(&mut source, m).into_iter().map(|table| Small::new(m, table)) {
            for list in lists(m, &small.table).into_iter().flat_map(|list| [shrunk(&list), with_unused(list, 3)]) {
                for changes in [1, 1, 1, 2, 3].repeat(5) {
                    let mut changed = list.clone();
                    (0..changes).for_each(|_| change_in_form(&mut source, &mut changed));
                    if source.one_in(8) {
                        let at = 2 + source.below(changed.len() - 2);
                        changed[at] = source.below(2 * m + 2) as u32;
                    }
                    *met.entry(number_and_first(small.judged(&changed))).or_insert(0) += 1;
                }
            }
        }
    }
    println!("lists by number: {met:?}");
    assert!(met.into_keys().eq([(0, 0), (18, 0), (20, 0)].into_iter().chain((0..5).map(|r| (21, r)))));
}

/// Which gates are of the form: an AND of an a wire and a b wire, on either side, and an XOR of two gates, which may be one and the same.
#[test]
fn form() {
    let (m, table) = (5, accepted(5));
    for list in lists(m, &table) {
        let last = 9 + list[1];
        for (kind, left, right, number) in [
            (0, 0, 5, 0), (0, 4, 9, 0), (0, 5, 0, 0), (0, 9, 4, 0),
            (0, 0, 4, 20), (0, 5, 9, 20), (0, 3, 3, 20), (0, 4, 10, 20), (0, 10, 4, 20), (0, 10, 5, 20), (0, 9, last, 20), (0, 10, 11, 20),
            (1, 10, last, 0), (1, last, 10, 0), (1, last, last, 0),
            (1, 0, 5, 20), (1, 9, 10, 20), (1, 10, 9, 20), (1, 0, last, 20), (1, last, 0, 20),
            (2, 0, 5, 18), (0, 0, last + 1, 18), (1, last + 1, 10, 18), (u32::MAX, u32::MAX, u32::MAX, 18),
        ] {
            let longer = with_gate(&list, [kind, left, right]);
            assert_eq!(number_and_first(judged(m, &table, &longer)), (number, 0), "{kind} {left} {right}");
            // Where the gate isn't the last one, and an output is wrong beside it.
            let longer = changed(&with_gate(&longer, [1, 10, 10]), &[(longer.len() + 2, last + 2)]);
            let due = if number == 0 { (21, 4) } else { (number, 0) };
            assert_eq!(number_and_first(judged(m, &table, &longer)), due, "{kind} {left} {right}");
        }
        // b on the left everywhere.
        let turned: Vec<_> = (0..m * m).flat_map(|n| [(3 + 3 * n, (m + n % m) as u32), (4 + 3 * n, (n / m) as u32)]).collect();
        is_accepted(m, &table, &changed(&list, &turned));
    }
}

/// 21 with each coordinate, at the widths from the least to the greatest.
#[test]
fn every_output_wrong() {
    let mut source = Source::new(24);
    for m in 2..=ACCEPTED_WIDTH {
        let table = accepted(m);
        for list in lists(m, &table).into_iter().flat_map(|list| [shrunk(&list), list]).filter(|list| list[1] as usize <= ACCEPTED_GATES) {
            let outputs = list.len() - m;
            for r in 0..m {
                let wrong = |list: &[u32]| assert_eq!(judged(m, &table, list), refused(21, r), "width {m}, coordinate {r}");
                let put = |wire: usize| changed(&list, &[(outputs + r, wire as u32)]);
                // An a wire, a b wire, a product; the empty sum; the output of a later coordinate, and both exchanged.
                [source.below(m), m + source.below(m), 2 * m].into_iter().for_each(|wire| wrong(&put(wire)));
                let empty = with_gate(&list, [1, 2 * m as u32, 2 * m as u32]);
                wrong(&changed(&empty, &[(outputs + 3 + r, 2 * list[0] + list[1])]));
                if r + 1 < m {
                    let later = r + 1 + source.below(m - r - 1);
                    wrong(&put(list[outputs + later] as usize));
                    wrong(&changed(&list, &[(outputs + r, list[outputs + later]), (outputs + later, list[outputs + r])]));
                }
            }
        }
    }
}

/// 19 from 2,001 gates and from width 17 on.
#[test]
fn too_great() {
    for m in [2, 5, 11, 16] {
        let table = accepted(m);
        let [_, list, _] = lists(m, &table);
        let more = ACCEPTED_GATES - list[1] as usize;
        assert!(is_accepted(m, &table, &with_unused(list.clone(), more)));
        assert!(!is_accepted(m, &table, &with_unused(list, more + 1)));
    }
    for m in [17, 18, 33] {
        let table = accepted(m);
        for list in lists(m, &table) {
            assert!(m > 17 || list[1] as usize <= ACCEPTED_GATES);
            assert_eq!(judged(m, &table, &list), refused(19, 0), "width {m}");
        }
    }
}

/// A list cut off anywhere, one word longer, or with another width or number of gates in its first words.
#[test]
fn lengths() {
    let (m, table) = (5, accepted(5));
    let [list, ..] = lists(m, &table);
    let cut = (0..list.len()).map(|length| list[..length].to_vec());
    let longer = [&list[..], &[0]].concat();
    let heads = [(0, 0), (0, 4), (0, 6), (0, u32::MAX), (1, 0), (1, list[1] - 1), (1, list[1] + 1), (1, 2_001), (1, u32::MAX)];
    for list in cut.chain([longer]).chain(heads.map(|word| changed(&list, &[word]))) {
        assert_eq!(judged(m, &table, &list), refused(2, 0), "{list:?}");
    }
}

/// Of several faults the one that is given: 1, 2, 3, 4, 5, 19, 18, 20, 21. They are made from the last to the first, each beside those
/// that come after it. At width 17 it is 19 instead of 18, 20 and 21.
#[test]
fn order() {
    for m in [12, 17] {
        let (mut table, w) = (accepted(m), bytes_for(m));
        let [_, mut list, _] = lists(m, &table);
        let (gates, outputs) = (list[1] as usize, list.len() - m);
        let gives = |table: &[u8], list: &[u32], number: u32, first: usize| {
            let due = if m > ACCEPTED_WIDTH && number >= 18 { refused(19, 0) } else { refused(number, first) };
            assert_eq!(judged(m, table, list), due, "width {m}");
        };
        list[outputs + m - 1] = 0;
        gives(&table, &list, 21, m - 1);
        list[outputs + 1] = 0;
        gives(&table, &list, 21, 1);
        // The last gate an AND of two a wires; then a gate of no kind, or an output that is absent.
        list[outputs - 3..outputs].copy_from_slice(&[0, 0, 1]);
        gives(&table, &list, 20, 0);
        gives(&table, &changed(&list, &[(outputs - 3, 2)]), 18, 0);
        list[outputs + m - 1] = (2 * m + gates) as u32;
        gives(&table, &list, 18, 0);
        list = with_unused(list, ACCEPTED_GATES + 1 - gates);
        gives(&table, &list, 19, 0);
        for d in (1..=m / 2).rev() {
            table[d * w] ^= 1;
            gives(&table, &list, 5, d);
        }
        table[0] ^= 1;
        gives(&table, &list, 4, 0);
        table[m * w - 1] |= 128;
        gives(&table, &list, 3, 0);
        gives(&table[1..], &list, 2, 0);
        list.push(0);
        gives(&table, &list, 2, 0);
        for width in [0, 1, 572, 65_536 + m, usize::MAX] {
            assert_eq!(judged(width, &table, &list), refused(1, 0), "width {width}");
        }
    }
}
