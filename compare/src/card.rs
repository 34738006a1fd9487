//! Reading and writing cards, and the report of a card.

use crate::bits::{bytes_for, judge_width, pack, places};
use crate::field::{judge, Table};
use crate::gates::{counts_of, list, Method};
use crate::{fault, Answer};

fn put(out: &mut Vec<u8>, n: usize) {
    if n < 128 {
        out.push(n as u8);
    } else {
        out.extend([128 + (n % 128) as u8, (n / 128) as u8]);
    }
}

pub fn card(t: &Table) -> Vec<u8> {
    let mut out = vec![];
    put(&mut out, 1);
    put(&mut out, t.m);
    for row in &t.rows {
        let places = places(row);
        put(&mut out, places.len());
        for (n, &place) in places.iter().enumerate() {
            put(&mut out, if n == 0 { place } else { place - places[n - 1] - 1 });
        }
    }
    out
}

pub fn write(m: usize, table: &[u8], out: &mut [u8]) -> Answer<usize> {
    let card = card(&judge(m, table, &[], &[])?);
    if out.len() < card.len() {
        return fault(11);
    }
    out[..card.len()].copy_from_slice(&card);
    Ok(card.len())
}

struct Reader<'a> {
    rest: &'a [u8],
}

impl Reader<'_> {
    fn byte(&mut self) -> Answer<usize> {
        match self.rest.split_first() {
            Some((&b, rest)) => {
                self.rest = rest;
                Ok(b as usize)
            }
            None => fault(12),
        }
    }

    fn number(&mut self) -> Answer<usize> {
        let low = self.byte()?;
        if low < 128 {
            return Ok(low);
        }
        let high = self.byte()?;
        if high == 0 || high >= 128 {
            return fault(13);
        }
        Ok(low - 128 + 128 * high)
    }
}

/// The number that stands for the width, and what follows it.
fn head(card: &[u8]) -> Answer<(usize, Reader<'_>)> {
    let mut reader = Reader { rest: card };
    if reader.number()? != 1 {
        return fault(14);
    }
    Ok((reader.number()?, reader))
}

/// The width that a card of form 1 states, of whatever size, where its bytes reach that far.
pub fn stated_width(card: &[u8]) -> Option<usize> {
    head(card).ok().map(|(m, _)| m)
}

/// The width and the table's bytes, judged in byte order; `room` is the length of the lent table.
pub fn parse(card: &[u8], room: usize) -> Answer<(usize, Vec<u8>)> {
    let (m, mut reader) = head(card)?;
    judge_width(m)?;
    if room < m * bytes_for(m) {
        return fault(11);
    }
    let mut table = vec![];
    for _ in 0..m {
        let count = reader.number()?;
        if count > m {
            return fault(15);
        }
        let mut row = vec![false; m];
        let mut next = 0;
        for _ in 0..count {
            let place = next + reader.number()?;
            if place >= m {
                return fault(15);
            }
            row[place] = true;
            next = place + 1;
        }
        table.extend(pack(&row));
    }
    if reader.rest.is_empty() {
        Ok((m, table))
    } else {
        fault(16)
    }
}

pub fn read(card: &[u8], table: &mut [u8]) -> Answer<usize> {
    let (m, bytes) = parse(card, table.len())?;
    table[..bytes.len()].copy_from_slice(&bytes);
    Ok(m)
}

/// What the report program prints for its standard input.
pub fn report(input: &[u8]) -> String {
    if input.len() > 65_536 {
        return "refused 2\n".to_string();
    }
    let (m, bytes) = match parse(input, usize::MAX) {
        Ok(read) => read,
        Err(f) => return format!("refused {}\n", f.number),
    };
    let t = judge(m, &bytes, &[], &[]).unwrap();
    let mut out = format!("width {m}\nones {}\n", t.ones());
    if let Err(f) = t.check() {
        return out + &format!("refused {}\n", f.number);
    }
    out += "accepted\n";
    for (name, method) in [("plain", Method::Plain), ("reduced", Method::Reduced), ("common", Method::Common)] {
        let (ands, xors) = counts_of(&list(&t, method));
        out += &format!("{name} {ands} {xors}\n");
    }
    out
}
