//! An independent version of every call of document 01 and of document 02's request (b), by coordinates and not optimised, to compare
//! with the proved one.
//!
//! - `bits`: operands as vectors of bits, and the judgements of widths, lengths and high bits
//! - `field`: tables, the check, products, inverse, trace and quadratic
//! - `gates`: the three gate lists, their counts, the runner, and whether a list forms a table's product
//! - `shrinker`: how a maker may shrink a gate list
//! - `gaussian`: types, drawn tables, and the product by IEEE 1363's own way
//! - `card`: reading and writing cards, and the report of a card
//! - `inputs`: inputs for the comparison, from one seed
//! - `proved`: the calls of the proved library, linked from target/staticlib/libnb.a
//! - `calls`: calls with their arguments, good and damaged, and the independent answer to each
//! - `stack`: how much stack a call takes
//! - `same`: the Rattle source without its contracts, compiled as Rust, for the benchmark

pub mod bits;
pub mod calls;
pub mod card;
pub mod field;
pub mod gates;
pub mod gaussian;
pub mod inputs;
pub mod proved;
pub mod same;
pub mod shrinker;
pub mod stack;

/// A fault of document 01: its number and the values returned beside it.
#[derive(Clone, Copy, Debug, PartialEq, Eq, Hash)]
pub struct Fault {
    pub number: u32,
    pub first: usize,
    pub second: usize,
}

pub type Answer<T> = Result<T, Fault>;

/// The two values that come with success, as the C interface has them: 0 where a call returns fewer.
pub type Pair = (usize, usize);

pub fn fault<T>(number: u32) -> Answer<T> {
    fault_with(number, 0, 0)
}

pub fn fault_with<T>(number: u32, first: usize, second: usize) -> Answer<T> {
    Err(Fault {
        number,
        first,
        second,
    })
}
