//! How a maker may shrink a gate list: Paar's greedy sharing of the commonest pair of terms. It goes by the list's words alone, and knows
//! neither the table nor how the list came about.

use crate::gates::{parts, List};

/// A term of some outputs: its wire, and output r as bit r.
type Term = (usize, u32);

/// The gates that a shrunk list takes over, in a list of their own, and the terms that its outputs are sums of. Terms are the AND
/// gates, and the XOR gates that are read more than once, such as a reduced list's pairs; the other XOR gates are taken apart.
fn terms(words: &[u32]) -> (List, Vec<Term>) {
    let m = words[0] as usize;
    let (gates, outputs) = parts(m, words).unwrap();
    let gate_of = |wire: u32| wire as usize - 2 * m;
    // The gates that a gate sums, none where it is an AND.
    let sums: Vec<Vec<usize>> = gates.iter().map(|gate| gate[1..].iter().filter(|_| gate[0] == 1).map(|&wire| gate_of(wire)).collect()).collect();
    let (mut reads, mut masks, mut kept) = (vec![0; gates.len()], vec![0; gates.len()], vec![false; gates.len()]);
    sums.iter().flatten().for_each(|&n| reads[n] += 1);
    for (r, &wire) in outputs.iter().enumerate() {
        reads[gate_of(wire)] += 1;
        masks[gate_of(wire)] |= 1 << r;
    }
    for n in (0..gates.len()).rev() {
        if gates[n][0] == 1 && reads[n] == 1 && !kept[n] {
            let mask = std::mem::take(&mut masks[n]);
            // A term that comes twice falls out.
            sums[n].iter().for_each(|&part| masks[part] ^= mask);
        } else if masks[n] != 0 || kept[n] {
            kept[n] = true;
            sums[n].iter().for_each(|&part| kept[part] = true);
        }
    }
    let (mut list, mut wires, mut terms) = (List::new(m), vec![0; gates.len()], vec![]);
    for n in (0..gates.len()).filter(|&n| kept[n]) {
        wires[n] = match sums[n][..] {
            [left, right] => list.xor(wires[left], wires[right]),
            _ => list.gate(0, gates[n][1] as usize, gates[n][2] as usize),
        };
        if masks[n] != 0 {
            terms.push((wires[n], masks[n]));
        }
    }
    (list, terms)
}

/// The two terms that most outputs have in common, at least two.
fn commonest(terms: &[Term]) -> Option<(usize, usize)> {
    let (mut most, mut pair) = (1, None);
    for (x, (_, left)) in terms.iter().enumerate() {
        if left.count_ones() <= most {
            continue;
        }
        for (y, (_, right)) in terms.iter().enumerate().skip(x + 1) {
            let common = (left & right).count_ones();
            if common > most {
                (most, pair) = (common, Some((x, y)));
            }
        }
    }
    pair
}

/// A list of the same sums, most of them shorter. Each output of the one handed in is a gate, and its sum isn't empty.
pub fn shrunk(words: &[u32]) -> Vec<u32> {
    let (mut list, mut terms) = terms(words);
    while let Some((x, y)) = commonest(&terms) {
        let common = terms[x].1 & terms[y].1;
        terms[x].1 ^= common;
        terms[y].1 ^= common;
        terms.push((list.xor(terms[x].0, terms[y].0), common));
    }
    for r in 0..words[0] {
        let of_output: Vec<_> = terms.iter().filter(|(_, mask)| mask >> r & 1 == 1).map(|(wire, _)| *wire).collect();
        let out = list.fold(&of_output);
        list.output(out);
    }
    list.finished()
}
