//! Calls with their arguments, good and damaged, from one seed, which the comparison hands to both versions and compare/same-answers to
//! two libraries; and the independent version's answer to a call.

use crate::bits::{self, bytes_for, MAX_WIDTH};
use crate::card;
use crate::field::{self, judge, Table};
use crate::gates::{self, List, Method, ACCEPTED_WIDTH};
use crate::gaussian::{self, drawn, least_type};
use crate::inputs::{
    all_accepted, change_in_form, change_word, damaged, dense, drawable, operand, some_card, sparse_symmetric, symmetric, table,
    with_detour, with_unused, wrong_lengths, Source,
};
pub use crate::proved::Call;
use crate::shrinker::shrunk;
use crate::{Answer, Pair};

/// Above this width the tables of lists, runs and inverses have few ones: a list of m³/2 gates would have too many words, and the
/// independent version's products would take too long.
const ANY_TABLE: usize = 64;

fn nothing(answer: Answer<()>) -> Answer<Pair> {
    answer.map(|()| (0, 0))
}

fn first(answer: Answer<usize>) -> Answer<Pair> {
    answer.map(|n| (n, 0))
}

impl Call {
    /// The answer of the independent version.
    pub fn by_coordinates(&mut self) -> Answer<Pair> {
        use Method::{Common, Plain, Reduced};
        match self {
            Call::check { width, table } => nothing(field::check(*width, table)),
            Call::ones { width, table } => first(field::ones(*width, table)),
            Call::product { width, table, a, b, result } => nothing(field::product(*width, table, a, b, result)),
            Call::product_reduced { width, table, a, b, result } => nothing(field::product_reduced(*width, table, a, b, result)),
            Call::inverse { width, table, a, result } => first(field::inverse(*width, table, a, result)),
            Call::zero { width, result } => nothing(bits::zero(*width, result)),
            Call::one { width, result } => nothing(bits::one(*width, result)),
            Call::turn { width, a, k, result } => nothing(bits::turn(*width, a, *k, result)),
            Call::sum { width, a, b, result } => nothing(bits::sum(*width, a, b, result)),
            Call::trace { width, a } => first(bits::trace(*width, a)),
            Call::solve { width, c, result } => nothing(bits::solve(*width, c, result)),
            Call::counts_plain { width, table } => gates::counts(*width, table, Plain),
            Call::counts_reduced { width, table } => gates::counts(*width, table, Reduced),
            Call::counts_common { width, table } => gates::counts(*width, table, Common),
            Call::list_plain { width, table, out } => gates::write(*width, table, Plain, out),
            Call::list_reduced { width, table, out } => gates::write(*width, table, Reduced, out),
            Call::list_common { width, table, out } => gates::write(*width, table, Common, out),
            Call::run { width, list, a, b, result, wires } => nothing(gates::run(*width, list, a, b, result, wires)),
            Call::accept { width, table, list } => gates::accept(*width, table, list),
            Call::type_of { width } => first(gaussian::type_of(*width)),
            Call::draw { width, table } => first(gaussian::draw(*width, table)),
            Call::card_write { width, table, out } => first(card::write(*width, table, out)),
            Call::card_read { card, table } => first(card::read(card, table)),
        }
    }
}

/// The words of a table's plain, reduced and common list, by the numbers of its ones and of its rows that are all ones. Of a table
/// that has no lists they are any number.
fn list_words(t: &Table) -> [usize; 3] {
    let (m, ones) = (t.m, t.ones().max(1));
    let full = t.rows.iter().filter(|row| !row.contains(&false)).count();
    let plain = m * (ones - 1);
    let common = if full == 0 { plain } else { m * (ones - m * full) + m * full - 1 };
    [plain, m * (m - 1 + ones - 1) / 2, common].map(|xors| 2 + 3 * (m * m + xors) + m)
}

/// A list of one gate. It forms no product, and stands for all lists of a width above those where gates are looked at.
fn one_gate(m: usize) -> Vec<u32> {
    let mut list = List::new(m);
    let wire = list.gate(0, 0, m);
    (0..m).for_each(|_| list.output(wire));
    list.finished()
}

/// A group of calls, made for a width.
pub type Group = fn(&mut Maker, usize) -> Vec<Call>;

/// Makes calls of any width. A width that the library refuses comes with arguments of another, or with its own where it is the
/// first that is too great.
pub struct Maker {
    source: Source,
    accepted: Vec<Vec<u8>>,
    /// One argument in so many is damaged, none where it is 0.
    pub harm: usize,
}

impl Maker {
    /// All calls, in groups.
    pub const GROUPS: [(&'static str, Group); 9] = [
        ("operands", Maker::operands),
        ("tables", Maker::tables),
        ("products", Maker::products),
        ("inverses", Maker::inverses),
        ("lists", Maker::lists),
        ("runs", Maker::runs),
        ("accepts", Maker::accepts),
        ("draws", Maker::draws),
        ("cards", Maker::cards),
    ];

    pub fn new(seed: u64, harm: usize) -> Maker {
        Maker { source: Source::new(seed), accepted: all_accepted(), harm }
    }

    pub fn source(&mut self) -> &mut Source {
        &mut self.source
    }

    /// The accepted table of a width that calls are made with.
    pub fn accepted(&self, m: usize) -> &[u8] {
        &self.accepted[m]
    }

    fn near(&self, m: usize) -> usize {
        if (2..=MAX_WIDTH + 1).contains(&m) {
            m
        } else {
            5
        }
    }

    fn harms(&mut self) -> bool {
        self.harm > 0 && self.source.one_in(self.harm)
    }

    fn perhaps_damaged(&mut self, m: usize, row_bytes: usize, bytes: Vec<u8>) -> Vec<u8> {
        if self.harms() {
            damaged(&mut self.source, m, row_bytes, bytes)
        } else {
            bytes
        }
    }

    fn table(&mut self, m: usize) -> Vec<u8> {
        let n = self.near(m);
        let t = table(&mut self.source, &self.accepted, n);
        self.perhaps_damaged(n, bytes_for(n), t)
    }

    /// A table that passes 4 and 5, and has few ones at great widths.
    fn light(&mut self, n: usize) -> Vec<u8> {
        match self.source.below(4) {
            0 if drawable(n) => self.accepted[n].clone(),
            1 | 2 if n <= ANY_TABLE => symmetric(&mut self.source, n),
            _ => sparse_symmetric(&mut self.source, n),
        }
    }

    /// Such a table, or any where it has few ones anyway.
    fn light_table(&mut self, m: usize) -> Vec<u8> {
        let n = self.near(m);
        if n <= ANY_TABLE && self.source.one_in(2) {
            return self.table(m);
        }
        let t = self.light(n);
        self.perhaps_damaged(n, bytes_for(n), t)
    }

    fn operand(&mut self, m: usize) -> Vec<u8> {
        let n = self.near(m);
        let a = operand(&mut self.source, n);
        self.perhaps_damaged(n, bytes_for(n), a)
    }

    fn result(&mut self, m: usize) -> Vec<u8> {
        let n = self.near(m);
        let bytes = self.source.bytes(bytes_for(n));
        self.perhaps_damaged(n, 0, bytes)
    }

    /// Room for what takes `needed`: as much and perhaps some more, or less.
    fn room(&mut self, needed: usize) -> usize {
        match (self.harms(), self.source.below(2)) {
            (false, 0) => needed,
            (false, _) => needed + self.source.below(40),
            (true, 0) => needed - 1,
            (true, _) => self.source.below(needed),
        }
    }

    pub fn operands(&mut self, width: usize) -> Vec<Call> {
        let (a, b, result) = (self.operand(width), self.operand(width), self.result(width));
        let n = self.near(width);
        let k = match self.source.below(8) {
            0 => n - 1,
            1 => n,
            2 => n + self.source.below(9),
            3 => [2 * n - 1, 2 * n, 1 << 32, usize::MAX][self.source.below(4)],
            _ => self.source.below(n),
        };
        vec![
            Call::zero { width, result: result.clone() },
            Call::one { width, result: result.clone() },
            Call::turn { width, a: a.clone(), k, result: result.clone() },
            Call::sum { width, a: a.clone(), b, result: result.clone() },
            Call::trace { width, a: a.clone() },
            Call::solve { width, c: a, result },
        ]
    }

    pub fn tables(&mut self, width: usize) -> Vec<Call> {
        let table = self.table(width);
        vec![Call::check { width, table: table.clone() }, Call::ones { width, table }]
    }

    /// The calls on one accepted table half of whose coordinates are 1. Making it takes long.
    pub fn dense(&mut self, width: usize) -> Vec<Call> {
        let n = self.near(width).min(MAX_WIDTH);
        let table = dense(&mut self.source, n, &self.accepted[n]);
        self.with_table(width, table)
    }

    /// The calls on the table of the least type, which was drawn before X9.62's choice, where that is another type.
    pub fn earlier(&mut self, width: usize) -> Vec<Call> {
        match gaussian::type_of(width) {
            Ok(t) if t != least_type(width) => self.with_table(width, drawn(width, least_type(width))),
            _ => vec![],
        }
    }

    /// The check, the ones, the counts, the products and the inverse under a table.
    fn with_table(&mut self, width: usize, table: Vec<u8>) -> Vec<Call> {
        let (a, b, result) = (self.operand(width), self.operand(width), self.result(width));
        vec![
            Call::check { width, table: table.clone() },
            Call::ones { width, table: table.clone() },
            Call::counts_plain { width, table: table.clone() },
            Call::counts_reduced { width, table: table.clone() },
            Call::counts_common { width, table: table.clone() },
            Call::product { width, table: table.clone(), a: a.clone(), b: b.clone(), result: result.clone() },
            Call::product_reduced { width, table: table.clone(), a: a.clone(), b, result: result.clone() },
            Call::inverse { width, table, a, result },
        ]
    }

    pub fn products(&mut self, width: usize) -> Vec<Call> {
        let (table, a, b, result) = (self.table(width), self.operand(width), self.operand(width), self.result(width));
        vec![
            Call::product { width, table: table.clone(), a: a.clone(), b: b.clone(), result: result.clone() },
            Call::product_reduced { width, table, a, b, result },
        ]
    }

    pub fn inverses(&mut self, width: usize) -> Vec<Call> {
        let (table, a, result) = (self.light_table(width), self.operand(width), self.result(width));
        vec![Call::inverse { width, table, a, result }]
    }

    pub fn lists(&mut self, width: usize) -> Vec<Call> {
        let table = self.light_table(width);
        let needed = judge(width, &table, &[], &[]).map_or([9; 3], |rows| list_words(&rows));
        let [plain, reduced, common] = needed.map(|words| vec![0xA5A5_A5A5; self.room(words)]);
        vec![
            Call::counts_plain { width, table: table.clone() },
            Call::counts_reduced { width, table: table.clone() },
            Call::counts_common { width, table: table.clone() },
            Call::list_plain { width, table: table.clone(), out: plain },
            Call::list_reduced { width, table: table.clone(), out: reduced },
            Call::list_common { width, table, out: common },
        ]
    }

    /// The plain, reduced or common list of a table that passes 4 and 5.
    fn list_of(&mut self, n: usize, table: &[u8]) -> Vec<u32> {
        let method = [Method::Plain, Method::Reduced, Method::Common][self.source.below(3)];
        gates::list(&Table::new(n, table), method)
    }

    /// A list with a word changed, its length changed, both or neither.
    fn perhaps_damaged_list(&mut self, mut list: Vec<u32>, change: fn(&mut Source, &mut [u32])) -> Vec<u32> {
        if self.harms() {
            change(&mut self.source, &mut list);
        }
        if self.harms() {
            let length = [list.len() - 1, list.len() + 1, self.source.below(4)][self.source.below(3)];
            list.resize(length, 0);
        }
        list
    }

    pub fn runs(&mut self, width: usize) -> Vec<Call> {
        let n = self.near(width);
        let t = self.light(n);
        let list = self.list_of(n, &t);
        let list = self.perhaps_damaged_list(list, change_word);
        let g = list.get(1).map_or(0, |&g| g as usize);
        let wires = self.source.bytes(2 * n + if 3 * g < list.len() { g } else { 7 });
        let wires = self.perhaps_damaged(n, 0, wires);
        let (a, b, result) = (self.operand(width), self.operand(width), self.result(width));
        vec![Call::run { width, list, a, b, result, wires }]
    }

    /// A table and its list, perhaps shrunk or with gates more; where harm is done, the list is changed or the table is another.
    pub fn accepts(&mut self, width: usize) -> Vec<Call> {
        let n = self.near(width);
        let table = self.light(n);
        let list = match self.source.below(8) {
            _ if n > ACCEPTED_WIDTH => one_gate(n),
            0 => shrunk(&self.list_of(n, &table)),
            1 => with_unused(self.list_of(n, &table), 1),
            2 => {
                let list = self.list_of(n, &table);
                with_detour(&mut self.source, list)
            }
            _ => self.list_of(n, &table),
        };
        let change = [change_word, change_in_form][self.source.below(2)];
        let list = self.perhaps_damaged_list(list, change);
        let table = if self.harms() { self.table(width) } else { self.perhaps_damaged(n, bytes_for(n), table) };
        vec![Call::accept { width, table, list }]
    }

    /// A draw into a buffer as long as the table; where harm is done, into one of each wrong length too, so that no width goes without.
    pub fn draws(&mut self, width: usize) -> Vec<Call> {
        let n = self.near(width);
        let needed = n * bytes_for(n);
        let wrong = if self.harm > 0 { wrong_lengths(needed).to_vec() } else { vec![] };
        let draws = [needed].into_iter().chain(wrong).map(|length| Call::draw { width, table: self.source.bytes(length) });
        [Call::type_of { width }].into_iter().chain(draws).collect()
    }

    pub fn cards(&mut self, width: usize) -> Vec<Call> {
        let n = self.near(width);
        let table = self.table(width);
        let needed = judge(width, &table, &[], &[]).map_or(9, |rows| card::card(&rows).len());
        let room = self.room(needed);
        let write = Call::card_write { width, table, out: self.source.bytes(room) };
        let changes = if self.harm > 0 { self.source.below(3) } else { 0 };
        let card = some_card(&mut self.source, &self.accepted, n, changes);
        let room = self.room(n * bytes_for(n));
        vec![write, Call::card_read { card, table: self.source.bytes(room) }]
    }
}
