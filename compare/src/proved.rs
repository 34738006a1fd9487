//! The calls of the proved library, as include/nb.h declares them, with slices for pointers and lengths.

use crate::{Answer, Fault, Pair};

mod raw {
    extern "C" {
        pub fn nb_check(width: u64, table: *const u8, table_len: usize) -> u64;
        pub fn nb_ones(width: u64, table: *const u8, table_len: usize) -> u64;
        pub fn nb_product(
            width: u64, table: *const u8, table_len: usize, a: *const u8, a_len: usize, b: *const u8, b_len: usize,
            result: *mut u8, result_len: usize,
        ) -> u64;
        pub fn nb_product_reduced(
            width: u64, table: *const u8, table_len: usize, a: *const u8, a_len: usize, b: *const u8, b_len: usize,
            result: *mut u8, result_len: usize,
        ) -> u64;
        pub fn nb_inverse(
            width: u64, table: *const u8, table_len: usize, a: *const u8, a_len: usize, result: *mut u8, result_len: usize,
        ) -> u64;
        pub fn nb_zero(width: u64, result: *mut u8, result_len: usize) -> u64;
        pub fn nb_one(width: u64, result: *mut u8, result_len: usize) -> u64;
        pub fn nb_turn(width: u64, a: *const u8, a_len: usize, k: u64, result: *mut u8, result_len: usize) -> u64;
        pub fn nb_sum(
            width: u64, a: *const u8, a_len: usize, b: *const u8, b_len: usize, result: *mut u8, result_len: usize,
        ) -> u64;
        pub fn nb_trace(width: u64, a: *const u8, a_len: usize) -> u64;
        pub fn nb_solve(width: u64, c: *const u8, c_len: usize, result: *mut u8, result_len: usize) -> u64;
        pub fn nb_counts_plain(width: u64, table: *const u8, table_len: usize) -> u64;
        pub fn nb_counts_reduced(width: u64, table: *const u8, table_len: usize) -> u64;
        pub fn nb_counts_common(width: u64, table: *const u8, table_len: usize) -> u64;
        pub fn nb_list_plain(width: u64, table: *const u8, table_len: usize, out: *mut u32, out_len: usize) -> u64;
        pub fn nb_list_reduced(width: u64, table: *const u8, table_len: usize, out: *mut u32, out_len: usize) -> u64;
        pub fn nb_list_common(width: u64, table: *const u8, table_len: usize, out: *mut u32, out_len: usize) -> u64;
        pub fn nb_run(
            width: u64, list: *const u32, list_len: usize, a: *const u8, a_len: usize, b: *const u8, b_len: usize,
            result: *mut u8, result_len: usize, wires: *mut u8, wires_len: usize,
        ) -> u64;
        #[cfg(accept)]
        pub fn nb_accept(width: u64, table: *const u8, table_len: usize, list: *const u32, list_len: usize) -> u64;
        pub fn nb_type(width: u64) -> u64;
        pub fn nb_draw(width: u64, table: *mut u8, table_len: usize) -> u64;
        pub fn nb_card_write(width: u64, table: *const u8, table_len: usize, out: *mut u8, out_len: usize) -> u64;
        pub fn nb_card_read(card: *const u8, card_len: usize, table: *mut u8, table_len: usize) -> u64;
    }

    /// In the place of the call that an earlier library doesn't have.
    #[cfg(not(accept))]
    pub unsafe fn nb_accept(_: u64, _: *const u8, _: usize, _: *const u32, _: usize) -> u64 {
        panic!("the library that is linked has no nb_accept")
    }
}

/// number + 2^8 · first + 2^36 · second.
fn unpacked(answer: u64) -> Answer<Pair> {
    let (number, first, second) = (answer % 256, (answer >> 8) % (1 << 28), answer >> 36);
    match number {
        0 => Ok((first as usize, second as usize)),
        _ => Err(Fault { number: number as u32, first: first as usize, second: second as usize }),
    }
}

/// Each call with a slice for a pointer and a length, and in `packed` with its one number as it comes. A slice's pointer is never
/// null, and a `&mut` slice overlaps nothing. `Call` is a call with its arguments, those that it writes among them.
macro_rules! calls {
    ($($public:ident = $raw:ident($($p:ident: $kind:tt),*);)*) => {
        $(pub fn $public($($p: calls!(@type $kind)),*) -> Answer<Pair> {
            unpacked(packed::$public($($p),*))
        })*

        pub mod packed {
            use super::raw;

            $(#[inline]
            pub fn $public($($p: calls!(@type $kind)),*) -> u64 {
                calls!(@call $raw [] $($p $kind)*)
            })*
        }

        #[allow(non_camel_case_types)]
        #[derive(Clone, Debug, PartialEq, Eq, Hash)]
        pub enum Call {
            $($public { $($p: calls!(@owned $kind)),* },)*
        }

        impl Call {
            pub fn name(&self) -> &'static str {
                match self {
                    $(Call::$public { .. } => stringify!($public),)*
                }
            }

            /// The answer of the proved library.
            pub fn proved(&mut self) -> Answer<Pair> {
                match self {
                    $(Call::$public { $($p),* } => $public($(calls!(@lent $kind $p)),*),)*
                }
            }
        }
    };
    (@type num) => { usize };
    (@type bytes) => { &[u8] };
    (@type words) => { &[u32] };
    (@type out) => { &mut [u8] };
    (@type outwords) => { &mut [u32] };
    (@owned num) => { usize };
    (@owned bytes) => { Vec<u8> };
    (@owned words) => { Vec<u32> };
    (@owned out) => { Vec<u8> };
    (@owned outwords) => { Vec<u32> };
    (@lent num $p:ident) => { *$p };
    (@lent $kind:tt $p:ident) => { $p };
    (@call $raw:ident [$($done:expr,)*]) => { unsafe { raw::$raw($($done,)*) } };
    (@call $raw:ident [$($done:expr,)*] $p:ident num $($rest:tt)*) => { calls!(@call $raw [$($done,)* $p as u64,] $($rest)*) };
    (@call $raw:ident [$($done:expr,)*] $p:ident bytes $($rest:tt)*) => { calls!(@call $raw [$($done,)* $p.as_ptr(), $p.len(),] $($rest)*) };
    (@call $raw:ident [$($done:expr,)*] $p:ident words $($rest:tt)*) => { calls!(@call $raw [$($done,)* $p.as_ptr(), $p.len(),] $($rest)*) };
    (@call $raw:ident [$($done:expr,)*] $p:ident out $($rest:tt)*) => { calls!(@call $raw [$($done,)* $p.as_mut_ptr(), $p.len(),] $($rest)*) };
    (@call $raw:ident [$($done:expr,)*] $p:ident outwords $($rest:tt)*) => { calls!(@call $raw [$($done,)* $p.as_mut_ptr(), $p.len(),] $($rest)*) };
}

calls! {
    check = nb_check(width: num, table: bytes);
    ones = nb_ones(width: num, table: bytes);
    product = nb_product(width: num, table: bytes, a: bytes, b: bytes, result: out);
    product_reduced = nb_product_reduced(width: num, table: bytes, a: bytes, b: bytes, result: out);
    inverse = nb_inverse(width: num, table: bytes, a: bytes, result: out);
    zero = nb_zero(width: num, result: out);
    one = nb_one(width: num, result: out);
    turn = nb_turn(width: num, a: bytes, k: num, result: out);
    sum = nb_sum(width: num, a: bytes, b: bytes, result: out);
    trace = nb_trace(width: num, a: bytes);
    solve = nb_solve(width: num, c: bytes, result: out);
    counts_plain = nb_counts_plain(width: num, table: bytes);
    counts_reduced = nb_counts_reduced(width: num, table: bytes);
    counts_common = nb_counts_common(width: num, table: bytes);
    list_plain = nb_list_plain(width: num, table: bytes, out: outwords);
    list_reduced = nb_list_reduced(width: num, table: bytes, out: outwords);
    list_common = nb_list_common(width: num, table: bytes, out: outwords);
    run = nb_run(width: num, list: words, a: bytes, b: bytes, result: out, wires: out);
    accept = nb_accept(width: num, table: bytes, list: words);
    type_of = nb_type(width: num);
    draw = nb_draw(width: num, table: out);
    card_write = nb_card_write(width: num, table: bytes, out: out);
    card_read = nb_card_read(card: bytes, table: out);
}

impl Call {
    /// Whether the library that is linked has the call.
    pub fn is_linked(&self) -> bool {
        cfg!(accept) || !matches!(self, Call::accept { .. })
    }
}
