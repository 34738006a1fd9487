//! The three gate lists as words, their counts, the runner, and whether a list forms a table's product.

use crate::bits::{added, bytes_for, judge_high, judge_lengths, judge_width, pack, unpack, Bits};
use crate::field::{judge, Table};
use crate::{fault, fault_with, Answer};

/// Up to here lists are accepted: by the width, and by the number of gates.
pub const ACCEPTED_WIDTH: usize = 16;
pub const ACCEPTED_GATES: usize = 2_000;

#[derive(Clone, Copy, Debug, PartialEq, Eq)]
pub enum Method {
    Plain,
    Reduced,
    Common,
}

/// A list while it is made: its words so far, without the number of gates, and the output wires.
pub struct List {
    m: usize,
    words: Vec<u32>,
    outputs: Vec<u32>,
}

impl List {
    pub fn new(m: usize) -> List {
        List { m, words: vec![m as u32, 0], outputs: vec![] }
    }

    /// The list of all products ai·bj.
    fn of_products(m: usize) -> List {
        let mut list = List::new(m);
        list.words.extend((0..m).flat_map(|i| (0..m).flat_map(move |j| [0, i as u32, (m + j) as u32])));
        list
    }

    fn gates(&self) -> usize {
        (self.words.len() - 2) / 3
    }

    fn and(&self, (i, j): (usize, usize)) -> usize {
        2 * self.m + i * self.m + j
    }

    /// The wire of a new gate.
    pub fn gate(&mut self, kind: u32, left: usize, right: usize) -> usize {
        self.words.extend([kind, left as u32, right as u32]);
        2 * self.m + self.gates() - 1
    }

    pub fn xor(&mut self, left: usize, right: usize) -> usize {
        self.gate(1, left, right)
    }

    pub fn fold(&mut self, terms: &[usize]) -> usize {
        terms[1..].iter().fold(terms[0], |wire, &t| self.xor(wire, t))
    }

    /// The next output.
    pub fn output(&mut self, wire: usize) {
        self.outputs.push(wire as u32);
    }

    pub fn finished(mut self) -> Vec<u32> {
        self.words[1] = self.gates() as u32;
        self.words.extend(self.outputs);
        self.words
    }
}

/// For each coordinate the pairs having it, by i, then j: βi·βj has r where row j-i has r-i.
fn pairs_having(t: &Table) -> impl Fn(usize) -> Vec<(usize, usize)> {
    let m = t.m;
    let columns: Vec<Vec<usize>> = (0..m).map(|s| (0..m).filter(|&d| t.rows[d][s]).collect()).collect();
    move |r| {
        let mut pairs = vec![];
        for i in 0..m {
            let rows = &columns[(r + m - i) % m];
            let (below, wrapped) = rows.split_at(rows.partition_point(|d| d + i < m));
            pairs.extend(wrapped.iter().map(|d| (i, d + i - m)));
            pairs.extend(below.iter().map(|d| (i, d + i)));
        }
        pairs
    }
}

/// The list of a table that has passed 1 to 5.
pub fn list(t: &Table, method: Method) -> Vec<u32> {
    let m = t.m;
    let mut list = List::of_products(m);
    let having = pairs_having(t);
    if method == Method::Reduced {
        let mut mixed = vec![vec![0; m]; m];
        for i in 0..m {
            for j in i + 1..m {
                let (left, right) = (list.and((i, j)), list.and((j, i)));
                mixed[i][j] = list.xor(left, right);
            }
        }
        for r in 0..m {
            let diagonal = list.and(((r + m - 1) % m, (r + m - 1) % m));
            let pairs = having(r).into_iter().filter(|(i, j)| i < j);
            let terms: Vec<_> = std::iter::once(diagonal).chain(pairs.map(|(i, j)| mixed[i][j])).collect();
            let out = list.fold(&terms);
            list.output(out);
        }
    } else {
        let full: Vec<bool> = t.rows.iter().map(|row| method == Method::Common && row.iter().all(|&b| b)).collect();
        let is_full = |&(i, j): &(usize, usize)| full[(j + m - i) % m];
        let s = full.contains(&true).then(|| {
            let pairs = (0..m).flat_map(|i| (0..m).map(move |j| (i, j))).filter(is_full);
            let terms: Vec<_> = pairs.map(|pair| list.and(pair)).collect();
            list.fold(&terms)
        });
        for r in 0..m {
            let others = having(r).into_iter().filter(|pair| !is_full(pair));
            let terms: Vec<_> = others.map(|pair| list.and(pair)).collect();
            let mut out = list.fold(&terms);
            if let Some(s) = s {
                out = list.xor(out, s);
            }
            list.output(out);
        }
    }
    list.finished()
}

/// The numbers of AND and of XOR gates of a list.
pub fn counts_of(words: &[u32]) -> (usize, usize) {
    let kinds = (0..words[1] as usize).map(|n| words[2 + 3 * n]);
    let ands = kinds.clone().filter(|&k| k == 0).count();
    (ands, kinds.filter(|&k| k == 1).count())
}

pub fn counts(m: usize, table: &[u8], method: Method) -> Answer<(usize, usize)> {
    let t = judge(m, table, &[], &[])?;
    t.symmetric()?;
    Ok(counts_of(&list(&t, method)))
}

pub fn write(m: usize, table: &[u8], method: Method, out: &mut [u32]) -> Answer<(usize, usize)> {
    let t = judge(m, table, &[], &[])?;
    t.symmetric()?;
    let words = list(&t, method);
    if out.len() < words.len() {
        return fault(11);
    }
    out[..words.len()].copy_from_slice(&words);
    Ok(counts_of(&words))
}

/// The gates of a list, three words each, and its outputs; 2 where it has other words than its first two ask for.
pub fn parts(m: usize, list: &[u32]) -> Answer<(Vec<&[u32]>, &[u32])> {
    if list.len() < 2 || list[0] as usize != m {
        return fault(2);
    }
    let end = 2 + 3 * list[1] as usize;
    judge_lengths(&[(list.len(), end + m)])?;
    Ok((list[2..end].chunks(3).collect(), &list[end..]))
}

/// 18.
fn judge_gates(m: usize, gates: &[&[u32]], outputs: &[u32]) -> Answer<()> {
    let absent = |wires: &[u32], own: usize| wires.iter().any(|&x| x as usize >= own);
    let bad = gates.iter().enumerate().any(|(n, gate)| gate[0] > 1 || absent(&gate[1..], 2 * m + n));
    if bad || absent(outputs, 2 * m + gates.len()) {
        return fault(18);
    }
    Ok(())
}

pub fn run(m: usize, list: &[u32], a: &[u8], b: &[u8], result: &mut [u8], wires: &mut [u8]) -> Answer<()> {
    judge_width(m)?;
    let (gates, outputs) = parts(m, list)?;
    let w = bytes_for(m);
    judge_lengths(&[(a.len(), w), (b.len(), w), (result.len(), w), (wires.len(), 2 * m + gates.len())])?;
    judge_high(m, &[a, b])?;
    judge_gates(m, &gates, outputs)?;
    let mut values = [unpack(m, a), unpack(m, b)].concat();
    for gate in &gates {
        let (x, y) = (values[gate[1] as usize], values[gate[2] as usize]);
        values.push(if gate[0] == 0 { x && y } else { x ^ y });
    }
    let coordinates: Vec<_> = outputs.iter().map(|&x| values[x as usize]).collect();
    result.copy_from_slice(&pack(&coordinates));
    for (wire, &value) in wires.iter_mut().zip(&values) {
        *wire = value as u8;
    }
    Ok(())
}

/// An AND of an a wire and a b wire, or an XOR of two gates.
fn in_form(m: usize, gate: &[u32]) -> bool {
    let [left, right] = [gate[1], gate[2]].map(|wire| wire as usize / m);
    match gate[0] {
        0 => left + right == 1,
        _ => left >= 2 && right >= 2,
    }
}

/// For each gate of the form the products ai·bj that it sums, at i·m + j.
fn product_sets(m: usize, gates: &[&[u32]]) -> Vec<Bits> {
    let mut sets: Vec<Bits> = vec![];
    for gate in gates {
        let (x, y) = (gate[1] as usize, gate[2] as usize);
        let set = match gate[0] {
            0 => (0..m * m).map(|pair| pair == x.min(y) * m + x.max(y) - m).collect(),
            _ => added(&sets[x - 2 * m], &sets[y - 2 * m]),
        };
        sets.push(set);
    }
    sets
}

/// Whether a list forms the plain product of a table that passes 1 to 5, and its counts.
pub fn accept(m: usize, table: &[u8], list: &[u32]) -> Answer<(usize, usize)> {
    judge_width(m)?;
    let (gates, outputs) = parts(m, list)?;
    let t = judge(m, table, &[], &[])?;
    t.symmetric()?;
    if m > ACCEPTED_WIDTH || gates.len() > ACCEPTED_GATES {
        return fault(19);
    }
    judge_gates(m, &gates, outputs)?;
    if !gates.iter().all(|gate| in_form(m, gate)) {
        return fault(20);
    }
    let sets = product_sets(m, &gates);
    let products: Vec<Bits> = (0..m * m).map(|pair| t.pair(pair / m, pair % m)).collect();
    let is_right = |r: usize| match (outputs[r] as usize).checked_sub(2 * m) {
        Some(gate) => products.iter().map(|product| product[r]).eq(sets[gate].iter().copied()),
        None => false,
    };
    match (0..m).find(|&r| !is_right(r)) {
        Some(r) => fault_with(21, r, 0),
        None => Ok(counts_of(list)),
    }
}
