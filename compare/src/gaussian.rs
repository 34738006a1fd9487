//! Types and the choice among them, drawn tables by the rule of document 01, and the product by IEEE 1363's own way: the sequence F(n)
//! and the sum over k.

use crate::bits::{bytes_for, judge_lengths, judge_width, pack, turned, Bits};
use crate::{fault, Answer};

fn prime(p: usize) -> bool {
    p >= 2 && (2..).take_while(|d| d * d <= p).all(|d| p % d != 0)
}

fn order_of_two(p: usize) -> usize {
    let mut k = 1;
    let mut x = 2 % p;
    while x != 1 {
        x = x * 2 % p;
        k += 1;
    }
    k
}

fn gcd(a: usize, b: usize) -> usize {
    if b == 0 {
        a
    } else {
        gcd(b, a % b)
    }
}

pub fn is_type(m: usize, t: usize) -> bool {
    let p = t * m + 1;
    p > 2 && prime(p) && gcd(t * m / order_of_two(p), m) == 1
}

/// The least type of a width that has one.
pub fn least_type(m: usize) -> usize {
    (1..).find(|&t| is_type(m, t)).unwrap()
}

/// ANSI X9.62's choice: 2 where it is a type, else 1 where that is one, else the least.
pub fn type_of(m: usize) -> Answer<usize> {
    judge_width(m)?;
    if m % 8 == 0 {
        return fault(17);
    }
    Ok([2, 1].into_iter().chain(3..).find(|&t| is_type(m, t)).unwrap())
}

fn power(u: usize, e: usize, p: usize) -> usize {
    (0..e).fold(1, |x, _| x * u % p)
}

/// Rows by the rule of document 01: K is the set of u with u^T = 1; row d sums βs where 1 + 2^d·w lies in 2^s·K, over w in K.
fn rows(m: usize, t: usize) -> Vec<Bits> {
    let p = t * m + 1;
    let k: Vec<_> = (1..p).filter(|&u| power(u, t, p) == 1).collect();
    let mut class = vec![m; p];
    for s in 0..m {
        let power = power(2, s, p);
        for &w in &k {
            class[power * w % p] = s;
        }
    }
    let row = |d: usize| {
        let power = power(2, d, p);
        let mut row = vec![false; m];
        for &w in &k {
            let x = (1 + power * w) % p;
            if x != 0 {
                row[class[x]] = !row[class[x]];
            } else if t % 2 == 1 {
                row.iter_mut().for_each(|b| *b = !*b);
            }
        }
        row
    };
    (0..m).map(row).collect()
}

/// The table of a width and any of its types, as bytes.
pub fn drawn(m: usize, t: usize) -> Vec<u8> {
    rows(m, t).iter().flat_map(|r| pack(r)).collect()
}

pub fn draw(m: usize, table: &mut [u8]) -> Answer<usize> {
    judge_width(m)?;
    judge_lengths(&[(table.len(), m * bytes_for(m))])?;
    let t = type_of(m)?;
    table.copy_from_slice(&drawn(m, t));
    Ok(t)
}

/// The Gaussian product of IEEE 1363: coordinate 0 is a sum over k of a at F(k+1) and b at F(p-k), with one more sum for odd T;
/// the others are coordinate 0 of the operands turned back.
pub struct Ieee1363 {
    m: usize,
    t: usize,
    f: Vec<usize>,
}

impl Ieee1363 {
    pub fn new(m: usize, t: usize) -> Ieee1363 {
        let p = t * m + 1;
        let element = |g: usize| (1..).scan(1, |x, _| { *x = *x * g % p; Some(*x) }).position(|x| x == 1).unwrap() + 1;
        let u = (1..p).find(|&g| element(g) == t).unwrap();
        let mut f = vec![0; p];
        let mut w = 1;
        for _ in 0..t {
            let mut n = w;
            for i in 0..m {
                f[n] = i;
                n = 2 * n % p;
            }
            w = u * w % p;
        }
        Ieee1363 { m, t, f }
    }

    fn first(&self, a: &[bool], b: &[bool]) -> bool {
        let p = self.t * self.m + 1;
        let mut c = (1..p - 1).fold(false, |c, k| c ^ (a[self.f[k + 1]] && b[self.f[p - k]]));
        if self.t % 2 == 1 {
            let h = self.m / 2;
            for k in 0..h {
                c ^= (a[k] && b[h + k]) ^ (a[h + k] && b[k]);
            }
        }
        c
    }

    pub fn product(&self, a: &[bool], b: &[bool]) -> Bits {
        let back = |x: &[bool], i: usize| turned(x, self.m - i);
        (0..self.m).map(|i| self.first(&back(a, i), &back(b, i))).collect()
    }
}
