//! Operands as vectors of bits, coordinate i at index i, and the judgements 1 to 3.

use crate::{fault, Answer};

pub const MAX_WIDTH: usize = 571;

pub type Bits = Vec<bool>;

/// W, the number of bytes of an operand.
pub fn bytes_for(m: usize) -> usize {
    m.div_ceil(8)
}

pub fn bit(bytes: &[u8], i: usize) -> bool {
    bytes[i / 8] >> (i % 8) & 1 == 1
}

pub fn unpack(m: usize, bytes: &[u8]) -> Bits {
    (0..m).map(|i| bit(bytes, i)).collect()
}

pub fn pack(bits: &[bool]) -> Vec<u8> {
    let mut bytes = vec![0; bytes_for(bits.len())];
    for (i, _) in bits.iter().enumerate().filter(|(_, &b)| b) {
        bytes[i / 8] |= 1 << (i % 8);
    }
    bytes
}

/// The coordinates that are 1, in order.
pub fn places(bits: &[bool]) -> Vec<usize> {
    (0..bits.len()).filter(|&i| bits[i]).collect()
}

pub fn judge_width(m: usize) -> Answer<()> {
    if (2..=MAX_WIDTH).contains(&m) {
        Ok(())
    } else {
        fault(1)
    }
}

/// Each pair is a length handed in and the length laid down.
pub fn judge_lengths(pairs: &[(usize, usize)]) -> Answer<()> {
    if pairs.iter().all(|(given, laid_down)| given == laid_down) {
        Ok(())
    } else {
        fault(2)
    }
}

/// Bits at m and above, in each operand of W bytes.
pub fn judge_high(m: usize, operands: &[&[u8]]) -> Answer<()> {
    let high = |bytes: &&[u8]| (m..8 * bytes.len()).any(|i| bit(bytes, i));
    if operands.iter().any(high) {
        fault(3)
    } else {
        Ok(())
    }
}

/// 1 to 3 for operands alone.
pub fn judge_operands(m: usize, operands: &[&[u8]], results: &[usize]) -> Answer<()> {
    judge_width(m)?;
    let mut lengths: Vec<_> = operands.iter().map(|a| (a.len(), bytes_for(m))).collect();
    lengths.extend(results.iter().map(|&r| (r, bytes_for(m))));
    judge_lengths(&lengths)?;
    judge_high(m, operands)
}

pub fn turned(a: &[bool], k: usize) -> Bits {
    let m = a.len();
    (0..m).map(|i| a[(i + m - k % m) % m]).collect()
}

pub fn added(a: &[bool], b: &[bool]) -> Bits {
    a.iter().zip(b).map(|(x, y)| x ^ y).collect()
}

/// The operand all of whose coordinates are `bit`, on W bytes.
fn constant(m: usize, bit: bool, result: &mut [u8]) -> Answer<()> {
    judge_operands(m, &[], &[result.len()])?;
    result.copy_from_slice(&pack(&vec![bit; m]));
    Ok(())
}

pub fn zero(m: usize, result: &mut [u8]) -> Answer<()> {
    constant(m, false, result)
}

pub fn one(m: usize, result: &mut [u8]) -> Answer<()> {
    constant(m, true, result)
}

/// The turn by k, whatever k is, on W bytes.
pub fn turn(m: usize, a: &[u8], k: usize, result: &mut [u8]) -> Answer<()> {
    judge_operands(m, &[a], &[result.len()])?;
    result.copy_from_slice(&pack(&turned(&unpack(m, a), k)));
    Ok(())
}

pub fn sum(m: usize, a: &[u8], b: &[u8], result: &mut [u8]) -> Answer<()> {
    judge_operands(m, &[a, b], &[result.len()])?;
    result.copy_from_slice(&pack(&added(&unpack(m, a), &unpack(m, b))));
    Ok(())
}

pub fn trace(m: usize, a: &[u8]) -> Answer<usize> {
    judge_operands(m, &[a], &[])?;
    Ok(places(&unpack(m, a)).len() % 2)
}

/// z² + z = c, with coordinate 0 of z equal 0.
pub fn solve(m: usize, c: &[u8], result: &mut [u8]) -> Answer<()> {
    judge_operands(m, &[c], &[result.len()])?;
    let c = unpack(m, c);
    if places(&c).len() % 2 == 1 {
        return fault(10);
    }
    let mut z = vec![false; m];
    for i in 1..m {
        z[i] = z[i - 1] ^ c[i];
    }
    result.copy_from_slice(&pack(&z));
    Ok(())
}
