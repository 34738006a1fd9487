//! Inputs for the comparison: widths, operands, tables, gate lists and cards, good and damaged, from one seed.

use crate::bits::{added, bytes_for, judge_width, pack, turned, Bits, MAX_WIDTH};
use crate::card::card;
use crate::field::Table;
use crate::gaussian;

/// xorshift64*, so that a seed gives the same calls on every machine.
pub struct Source(u64);

impl Source {
    pub fn new(seed: u64) -> Source {
        Source(seed.wrapping_mul(0x9E37_79B9_7F4A_7C15) | 1)
    }

    pub fn next(&mut self) -> u64 {
        self.0 ^= self.0 >> 12;
        self.0 ^= self.0 << 25;
        self.0 ^= self.0 >> 27;
        self.0.wrapping_mul(0x2545_F491_4F6C_DD1D)
    }

    pub fn below(&mut self, n: usize) -> usize {
        (self.next() >> 11) as usize % n
    }

    pub fn one_in(&mut self, n: usize) -> bool {
        self.below(n) == 0
    }

    pub fn bytes(&mut self, n: usize) -> Vec<u8> {
        (0..n).map(|_| self.next() as u8).collect()
    }

    pub fn bits(&mut self, m: usize) -> Bits {
        (0..m).map(|_| self.one_in(2)).collect()
    }

    /// A bit vector with few ones.
    pub fn sparse(&mut self, m: usize) -> Bits {
        let mut bits = vec![false; m];
        for _ in 0..self.below(4) {
            bits[self.below(m)] = true;
        }
        bits
    }
}

/// Widths where the bytes or words of an operand are just full, and those beside; the widths of the published points; the ends.
pub const EDGES: [usize; 40] = [
    2, 7, 8, 9, 15, 16, 17, 63, 64, 65, 127, 128, 129, 163, 191, 192, 193, 233, 247, 248, 254, 255, 256, 257, 283, 319, 320, 321, 383,
    384, 385, 409, 447, 448, 449, 511, 512, 513, 570, 571,
];

/// The widths of the next meters.
pub const METERS: [usize; 3] = [283, 409, 571];

/// Whether a width has a drawn table.
pub fn drawable(m: usize) -> bool {
    judge_width(m).is_ok() && m % 8 != 0
}

/// The middle exponents of irreducible polynomials x^n + .. + 1 of the degrees n that are powers of 2.
const POLYNOMIALS: [(usize, [usize; 3]); 7] =
    [(8, [4, 3, 1]), (16, [5, 3, 1]), (32, [7, 3, 2]), (64, [4, 3, 1]), (128, [7, 2, 1]), (256, [10, 5, 2]), (512, [8, 5, 2])];

/// The product of two polynomials modulo such a one.
fn polynomial_product(middle: &[usize; 3], a: &Bits, b: &Bits) -> Bits {
    let (mut sum, mut power) = (vec![false; a.len()], b.clone());
    for &coefficient in a {
        if coefficient {
            sum = added(&sum, &power);
        }
        power.rotate_right(1);
        let carry = power[0];
        middle.iter().for_each(|&e| power[e] ^= carry);
    }
    sum
}

/// An accepted table of a width: the drawn one. Where 8 divides the width there is none; then the basis is the products of two, element
/// by element: one of the power of 2 in the width, found with polynomials, and the drawn one of the odd rest.
pub fn accepted(m: usize) -> Vec<u8> {
    if drawable(m) {
        let mut table = vec![0; m * bytes_for(m)];
        gaussian::draw(m, &mut table).unwrap();
        return table;
    }
    let n = 1 << m.trailing_zeros();
    let (_, middle) = POLYNOMIALS.iter().find(|(degree, _)| *degree == n).unwrap();
    let product = |a: &Bits, b: &Bits| polynomial_product(middle, a, b);
    let base = table_of_basis(&mut Source::new(1), n, |a| product(a, a), product);
    if m == n {
        return base;
    }
    let (base, rest) = (Table::new(n, &base), Table::new(m / n, &accepted(m / n)));
    let row = |d: usize| (0..m).map(|s| base.rows[d % n][s % n] && rest.rows[d % rest.m][s % rest.m]).collect();
    packed(&(0..m).map(row).collect::<Vec<_>>())
}

/// An accepted table of each width, at the index of its width.
pub fn all_accepted() -> Vec<Vec<u8>> {
    (0..=MAX_WIDTH).map(|m| if judge_width(m).is_ok() { accepted(m) } else { vec![] }).collect()
}

fn packed(rows: &[Bits]) -> Vec<u8> {
    rows.iter().flat_map(|r| pack(r)).collect()
}

/// A table that passes 4 and 5: `row` gives the free coordinates of rows 1 to m/2, as many as it is asked for. Those are all m, but for
/// row m/2 of an even m, whose second half repeats the first.
fn from_half(m: usize, mut row: impl FnMut(usize) -> Bits) -> Vec<u8> {
    let mut rows: Vec<Bits> = vec![vec![false; m]; m];
    rows[0][1 % m] = true;
    for d in 1..=m / 2 {
        rows[d] = if 2 * d == m { row(d).repeat(2) } else { row(m) };
        rows[m - d] = turned(&rows[d], m - d);
    }
    packed(&rows)
}

/// A table that passes 4 and 5, its other rows random: dense, sparse, or all ones here and there.
pub fn symmetric(source: &mut Source, m: usize) -> Vec<u8> {
    let kind = source.below(3);
    from_half(m, |free| match kind {
        0 => source.bits(free),
        1 => source.sparse(free),
        _ if source.one_in(2) => vec![true; free],
        _ => source.sparse(free),
    })
}

/// A table that passes 4 and 5, its other rows sparse, but for one all ones in half of the tables: its lists are short.
pub fn sparse_symmetric(source: &mut Source, m: usize) -> Vec<u8> {
    let (full, mut d) = (source.below(m), 0);
    from_half(m, |free| {
        d += 1;
        if d == full {
            vec![true; free]
        } else {
            source.sparse(free)
        }
    })
}

/// Every table of a width that passes 4 and 5.
pub fn all_symmetric(m: usize) -> impl Iterator<Item = Vec<u8>> {
    let free = (m * (m - 1)) / 2;
    (0u64..1 << free).map(move |choice| {
        let mut bit = (0..free).map(|k| choice >> k & 1 == 1);
        from_half(m, |n| bit.by_ref().take(n).collect())
    })
}

/// A table with coordinate s of row d changed, and the coordinate of row m-d with it that rule 5 ties to it.
pub fn changed_pair(m: usize, table: &[u8], d: usize, s: usize) -> Vec<u8> {
    let mut changed = table.to_vec();
    let mut flip = |row: usize, place: usize| changed[row * bytes_for(m) + place / 8] ^= 1 << (place % 8);
    flip(d, s);
    flip(m - d, (s + m - d) % m);
    changed
}

/// A table of the right shape: accepted, symmetric, or random, or one bit away from that, or two that rule 5 ties together.
pub fn table(source: &mut Source, accepted: &[Vec<u8>], m: usize) -> Vec<u8> {
    let mut table = match source.below(4) {
        0 => symmetric(source, m),
        1 => packed(&(0..m).map(|_| source.sparse(m)).collect::<Vec<_>>()),
        _ if m < accepted.len() => accepted[m].clone(),
        _ => symmetric(source, m),
    };
    match source.below(12) {
        0 | 1 => {
            let (row, s) = (source.below(m), source.below(m));
            table[row * bytes_for(m) + s / 8] ^= 1 << (s % 8);
        }
        2 => table = changed_pair(m, &table, 1 + source.below(m - 1), source.below(m)),
        _ => {}
    }
    table
}

pub fn operand(source: &mut Source, m: usize) -> Vec<u8> {
    let bits = match source.below(8) {
        0 => vec![false; m],
        1 => vec![true; m],
        2 | 3 => source.bits(m),
        _ => source.sparse(m),
    };
    pack(&bits)
}

/// Lengths that are wrong where `n` is right.
pub fn wrong_lengths(n: usize) -> [usize; 4] {
    [n - 1, n + 1, 0, 2 * n]
}

/// Bytes of a wrong length, or with a bit at the width or above where there is room for one. `row_bytes` is 0 where any bits may be set.
pub fn damaged(source: &mut Source, m: usize, row_bytes: usize, mut bytes: Vec<u8>) -> Vec<u8> {
    if row_bytes > 0 && m % 8 != 0 && source.one_in(2) {
        let rows = bytes.len() / row_bytes;
        let last = (source.below(rows) + 1) * row_bytes - 1;
        bytes[last] |= 1 << (m % 8 + source.below(8 - m % 8));
    } else {
        bytes.resize(wrong_lengths(bytes.len())[source.below(4)], 0);
    }
    bytes
}

/// Where the words of a list's gates end: gate n begins at 2 + 3n, and the outputs follow the last.
fn gates_end(list: &[u32]) -> usize {
    2 + 3 * list[1] as usize
}

/// Gates put behind the last, each its kind and its two wires.
pub fn push_gates(list: &mut Vec<u32>, gates: &[[u32; 3]]) {
    let end = gates_end(list);
    list[1] += gates.len() as u32;
    list.splice(end..end, gates.concat());
}

/// A list with so many gates more that no output reads. They are of the form: XORs of the first gate and the one before.
pub fn with_unused(mut list: Vec<u32>, more: usize) -> Vec<u32> {
    let (first, next) = (2 * list[0], 2 * list[0] + list[1]);
    let gates: Vec<_> = (next..next + more as u32).map(|wire| [1, first, wire - 1]).collect();
    push_gates(&mut list, &gates);
    list
}

/// A list in which an output has a gate added and, behind that, added again: its sum is as before.
pub fn with_detour(source: &mut Source, mut list: Vec<u32>) -> Vec<u32> {
    let (first, next) = (2 * list[0], 2 * list[0] + list[1]);
    let (r, added) = (source.below(list[0] as usize), first + source.below(list[1] as usize) as u32);
    let output = list[gates_end(&list) + r];
    push_gates(&mut list, &[[1, output, added], [1, added, next]]);
    let end = gates_end(&list);
    list[end + r] = next + 1;
    list
}

/// A word of a list changed: a kind; to any wire that a gate can read; to the last that a gate or an output can, or the first that it
/// can't; to any word.
pub fn change_word(source: &mut Source, list: &mut [u32]) {
    let (m, g) = (list[0] as usize, list[1] as usize);
    let gate = source.below(g);
    let (at, word) = match source.below(6) {
        0 => (2 + 3 * gate, source.below(4)),
        1 => (3 + 3 * gate + source.below(2), source.below(2 * m + gate)),
        2 | 3 => (3 + 3 * gate + source.below(2), 2 * m + gate - source.below(2)),
        4 => (gates_end(list) + source.below(m), 2 * m + g - source.below(2)),
        _ => (source.below(list.len()), source.next() as usize),
    };
    list[at] = word as u32;
}

/// A list of the form changed so that it stays of the form: an operand of a gate to another wire of its kind, a gate's operands
/// exchanged, two outputs exchanged, an output to any wire or to an input wire.
pub fn change_in_form(source: &mut Source, list: &mut [u32]) {
    let (m, g, outputs) = (list[0] as usize, list[1] as usize, gates_end(list));
    let gate = source.below(g);
    let at = 2 + 3 * gate;
    match source.below(8) {
        0 => list.swap(at + 1, at + 2),
        1 => list.swap(outputs + source.below(m), outputs + source.below(m)),
        2 => list[outputs + source.below(m)] = source.below(2 * m) as u32,
        3 => list[outputs + source.below(m)] = source.below(2 * m + g) as u32,
        _ => {
            let operand = at + 1 + source.below(2);
            let wires = [0..m, m..2 * m, 2 * m..2 * m + gate][(list[operand] as usize / m).min(2)].clone();
            list[operand] = (wires.start + source.below(wires.len())) as u32;
        }
    }
}

/// A card of some table, changed so many times: cut off, longer, or with bytes changed.
pub fn some_card(source: &mut Source, accepted: &[Vec<u8>], m: usize, changes: usize) -> Vec<u8> {
    let table = table(source, accepted, m);
    let mut bytes = card(&Table::new(m, &table));
    for _ in 0..changes {
        match source.below(5) {
            0 => bytes.truncate(source.below(bytes.len() + 1)),
            1 => {
                let more = source.below(3);
                let tail = source.bytes(more);
                bytes.extend(tail);
            }
            2 if !bytes.is_empty() => {
                let at = source.below(bytes.len().min(6));
                bytes[at] = source.next() as u8;
            }
            3 if !bytes.is_empty() => {
                let at = source.below(bytes.len());
                bytes[at] = [0, 1, 127, 128, 129, 255][source.below(6)];
            }
            _ if !bytes.is_empty() => {
                let at = source.below(bytes.len());
                bytes.insert(at, source.next() as u8);
            }
            _ => {}
        }
    }
    bytes
}

/// The table of a normal basis: that of a random element whose squares, and theirs, are independent.
fn table_of_basis(source: &mut Source, m: usize, square: impl Fn(&Bits) -> Bits, product: impl Fn(&Bits, &Bits) -> Bits) -> Vec<u8> {
    loop {
        let element = source.bits(m);
        let basis: Vec<Bits> = std::iter::successors(Some(element), |x| Some(square(x))).take(m).collect();
        if let Some(solve) = Solver::new(&basis) {
            let rows: Vec<Bits> = basis.iter().map(|x| solve.coordinates(&product(&basis[0], x))).collect();
            return packed(&rows);
        }
    }
}

/// The table of another normal basis of the field that a table gives: its ones are about half of all.
pub fn dense(source: &mut Source, m: usize, table: &[u8]) -> Vec<u8> {
    let t = Table::new(m, table);
    table_of_basis(source, m, |a| turned(a, 1), |a, b| t.product_by_places(a, b))
}

/// Coordinates with respect to a basis, by elimination: each pivot row with the basis elements that it is the sum of.
struct Solver {
    pivots: Vec<(usize, Bits, Bits)>,
}

impl Solver {
    fn new(basis: &[Bits]) -> Option<Solver> {
        let mut solver = Solver { pivots: vec![] };
        for (i, element) in basis.iter().enumerate() {
            let (rest, mut used) = solver.reduce(element);
            used[i] = !used[i];
            let pivot = rest.iter().position(|&b| b)?;
            solver.pivots.push((pivot, rest, used));
        }
        Some(solver)
    }

    /// What is left of x, and the basis elements that were taken away.
    fn reduce(&self, x: &Bits) -> (Bits, Bits) {
        let (mut rest, mut used) = (x.clone(), vec![false; x.len()]);
        for (pivot, row, parts) in &self.pivots {
            if rest[*pivot] {
                rest = added(&rest, row);
                used = added(&used, parts);
            }
        }
        (rest, used)
    }

    fn coordinates(&self, x: &Bits) -> Bits {
        self.reduce(x).1
    }
}
