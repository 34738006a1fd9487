//! Tables, the check, the two products, the inverse.

use crate::bits::{self, added, bytes_for, judge_high, judge_lengths, judge_width, pack, places, turned, unpack, Bits};
use crate::{fault, fault_with, Answer};

/// A table's rows as vectors of bits.
pub struct Table {
    pub m: usize,
    pub rows: Vec<Bits>,
}

fn row_bytes(m: usize, table: &[u8]) -> Vec<&[u8]> {
    table.chunks(bytes_for(m)).collect()
}

/// 1 to 3 for a table and operands of W bytes; `results` are the lengths of lent results.
pub fn judge(m: usize, table: &[u8], operands: &[&[u8]], results: &[usize]) -> Answer<Table> {
    judge_width(m)?;
    let mut lengths = vec![(table.len(), m * bytes_for(m))];
    lengths.extend(operands.iter().map(|a| (a.len(), bytes_for(m))));
    lengths.extend(results.iter().map(|&r| (r, bytes_for(m))));
    judge_lengths(&lengths)?;
    judge_high(m, &row_bytes(m, table))?;
    judge_high(m, operands)?;
    Ok(Table::new(m, table))
}

fn basis(m: usize, k: usize) -> Bits {
    (0..m).map(|i| i == k).collect()
}

impl Table {
    /// The rows of a table of the right shape.
    pub fn new(m: usize, table: &[u8]) -> Table {
        Table {
            m,
            rows: row_bytes(m, table).iter().map(|r| unpack(m, r)).collect(),
        }
    }

    /// βi·βj: row j-i turned i places.
    pub fn pair(&self, i: usize, j: usize) -> Bits {
        turned(&self.rows[(j + self.m - i) % self.m], i)
    }

    pub fn product(&self, a: &[bool], b: &[bool]) -> Bits {
        let mut c = vec![false; self.m];
        for i in (0..self.m).filter(|&i| a[i]) {
            for j in (0..self.m).filter(|&j| b[j]) {
                c = added(&c, &self.pair(i, j));
            }
        }
        c
    }

    /// The product again, through the places of the rows' ones: one step for each coordinate of a pair that is 1, where `product`
    /// takes m steps for each pair. What makes many products at great widths takes this one.
    pub fn product_by_places(&self, a: &[bool], b: &[bool]) -> Bits {
        let m = self.m;
        let rows: Vec<_> = self.rows.iter().map(|row| places(row)).collect();
        let mut c = vec![false; m];
        for i in places(a) {
            for j in places(b) {
                for s in &rows[(j + m - i) % m] {
                    c[(s + i) % m] ^= true;
                }
            }
        }
        c
    }

    pub fn reduced(&self, a: &[bool], b: &[bool]) -> Bits {
        let m = self.m;
        let mut c: Bits = (0..m).map(|r| a[(r + m - 1) % m] && b[(r + m - 1) % m]).collect();
        for i in 0..m {
            for j in (i + 1..m).filter(|&j| (a[i] && b[j]) ^ (a[j] && b[i])) {
                c = added(&c, &self.pair(i, j));
            }
        }
        c
    }

    pub fn ones(&self) -> usize {
        self.rows.iter().map(|row| places(row).len()).sum()
    }

    /// 4 and 5.
    pub fn symmetric(&self) -> Answer<()> {
        let m = self.m;
        if self.rows[0] != basis(m, 1) {
            return fault(4);
        }
        match (1..m).find(|&d| self.rows[d] != turned(&self.rows[m - d], d)) {
            Some(d) => fault_with(5, d, 0),
            None => Ok(()),
        }
    }

    /// 4 to 6.
    pub fn check(&self) -> Answer<()> {
        let m = self.m;
        self.symmetric()?;
        for i in 0..m {
            for j in 0..m {
                let left = self.product(&self.product(&basis(m, 0), &basis(m, i)), &basis(m, j));
                let right = self.product(&basis(m, 0), &self.product(&basis(m, i), &basis(m, j)));
                if left != right {
                    return fault_with(6, i, j);
                }
            }
        }
        Ok(())
    }
}

pub fn check(m: usize, table: &[u8]) -> Answer<()> {
    judge(m, table, &[], &[])?.check()
}

pub fn ones(m: usize, table: &[u8]) -> Answer<usize> {
    Ok(judge(m, table, &[], &[])?.ones())
}

pub fn product(m: usize, table: &[u8], a: &[u8], b: &[u8], result: &mut [u8]) -> Answer<()> {
    let t = judge(m, table, &[a, b], &[result.len()])?;
    result.copy_from_slice(&pack(&t.product(&unpack(m, a), &unpack(m, b))));
    Ok(())
}

pub fn product_reduced(m: usize, table: &[u8], a: &[u8], b: &[u8], result: &mut [u8]) -> Answer<()> {
    let t = judge(m, table, &[a, b], &[result.len()])?;
    t.symmetric()?;
    result.copy_from_slice(&pack(&t.reduced(&unpack(m, a), &unpack(m, b))));
    Ok(())
}

/// The inverse by the chain over the binary digits of m-1, and the number of products made.
pub fn inverse(m: usize, table: &[u8], a: &[u8], result: &mut [u8]) -> Answer<usize> {
    let table = judge(m, table, &[a], &[result.len()])?;
    let a = unpack(m, a);
    if !a.contains(&true) {
        return fault(9);
    }
    let (mut t, mut k, mut count) = (a.clone(), 1, 0);
    for digit in format!("{:b}", m - 1).chars().skip(1) {
        t = table.product_by_places(&turned(&t, k), &t);
        k *= 2;
        count += 1;
        if digit == '1' {
            t = table.product_by_places(&turned(&t, 1), &a);
            k += 1;
            count += 1;
        }
    }
    result.copy_from_slice(&bits::pack(&turned(&t, 1)));
    Ok(count)
}
