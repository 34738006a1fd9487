// Takes in a table from its card, checks it, multiplies, inverts and raises to a power under it, writes its gate list and its card.
// Build and run, from the project's root:
//
//     ./library
//     rustc --edition 2021 samples/use_nb.rs -L target/staticlib -l static=nb -o target/use_nb_rs
//     target/use_nb_rs
//
// It prints what samples/use_nb.c prints.

// The calls that are used here, as include/nb.h declares them: a slice passes as pointer and length.
mod c {
    extern "C" {
        pub fn nb_card_read(card: *const u8, card_len: usize, table: *mut u8, table_len: usize) -> u64;
        pub fn nb_ones(width: u64, table: *const u8, table_len: usize) -> u64;
        pub fn nb_check(width: u64, table: *const u8, table_len: usize) -> u64;
        pub fn nb_product(
            width: u64,
            table: *const u8,
            table_len: usize,
            a: *const u8,
            a_len: usize,
            b: *const u8,
            b_len: usize,
            result: *mut u8,
            result_len: usize,
        ) -> u64;
        pub fn nb_inverse(
            width: u64,
            table: *const u8,
            table_len: usize,
            a: *const u8,
            a_len: usize,
            result: *mut u8,
            result_len: usize,
        ) -> u64;
        pub fn nb_turn(width: u64, a: *const u8, a_len: usize, k: u64, result: *mut u8, result_len: usize) -> u64;
        pub fn nb_counts_reduced(width: u64, table: *const u8, table_len: usize) -> u64;
        pub fn nb_list_reduced(width: u64, table: *const u8, table_len: usize, out: *mut u32, out_len: usize) -> u64;
        pub fn nb_card_write(width: u64, table: *const u8, table_len: usize, out: *mut u8, out_len: usize) -> u64;
    }
}

// As include/nb.h has them.
const MAX_WIDTH: usize = 571;

const fn operand_bytes(m: usize) -> usize {
    m.div_ceil(8)
}

const fn table_bytes(m: usize) -> usize {
    m * operand_bytes(m)
}

const fn card_bytes(m: usize) -> usize {
    3 + m * (m + 2)
}

const fn list_words(m: usize, ands: usize, xors: usize) -> usize {
    2 + 3 * (ands + xors) + m
}

// What a call answers: the values returned with success, or a fault's number and the values beside it.
type Answer = Result<(u64, u64), (u64, u64, u64)>;

fn unpacked(answer: u64) -> Answer {
    let (number, first, second) = (answer & 0xff, answer >> 8 & 0xfff_ffff, answer >> 36);
    if number == 0 {
        Ok((first, second))
    } else {
        Err((number, first, second))
    }
}

// Safe calls: slices are never null, and a `&mut` overlaps no other argument.
fn card_read(card: &[u8], table: &mut [u8]) -> Answer {
    unpacked(unsafe { c::nb_card_read(card.as_ptr(), card.len(), table.as_mut_ptr(), table.len()) })
}

fn ones(width: u64, table: &[u8]) -> Answer {
    unpacked(unsafe { c::nb_ones(width, table.as_ptr(), table.len()) })
}

fn check(width: u64, table: &[u8]) -> Answer {
    unpacked(unsafe { c::nb_check(width, table.as_ptr(), table.len()) })
}

fn product(width: u64, table: &[u8], a: &[u8], b: &[u8], result: &mut [u8]) -> Answer {
    unpacked(unsafe {
        c::nb_product(
            width,
            table.as_ptr(),
            table.len(),
            a.as_ptr(),
            a.len(),
            b.as_ptr(),
            b.len(),
            result.as_mut_ptr(),
            result.len(),
        )
    })
}

fn inverse(width: u64, table: &[u8], a: &[u8], result: &mut [u8]) -> Answer {
    unpacked(unsafe {
        c::nb_inverse(
            width,
            table.as_ptr(),
            table.len(),
            a.as_ptr(),
            a.len(),
            result.as_mut_ptr(),
            result.len(),
        )
    })
}

fn turn(width: u64, a: &[u8], k: u64, result: &mut [u8]) -> Answer {
    unpacked(unsafe { c::nb_turn(width, a.as_ptr(), a.len(), k, result.as_mut_ptr(), result.len()) })
}

fn counts_reduced(width: u64, table: &[u8]) -> Answer {
    unpacked(unsafe { c::nb_counts_reduced(width, table.as_ptr(), table.len()) })
}

fn list_reduced(width: u64, table: &[u8], out: &mut [u32]) -> Answer {
    unpacked(unsafe { c::nb_list_reduced(width, table.as_ptr(), table.len(), out.as_mut_ptr(), out.len()) })
}

fn card_write(width: u64, table: &[u8], out: &mut [u8]) -> Answer {
    unpacked(unsafe { c::nb_card_write(width, table.as_ptr(), table.len(), out.as_mut_ptr(), out.len()) })
}

// The card of document 01's table of width 5, 02 09 18 06 14: form, width, and for each row its number of ones and their places.
const CARD: [u8; 16] = [1, 5, 1, 1, 2, 0, 2, 2, 3, 0, 2, 1, 0, 2, 2, 1];

fn run() -> Result<(), (u64, u64, u64)> {
    let mut lent = [0u8; table_bytes(MAX_WIDTH)];
    let (m, _) = card_read(&CARD, &mut lent)?;
    let table = &mut lent[..table_bytes(m as usize)];

    println!("width {}, ones {}", m, ones(m, table)?.0);
    check(m, table)?;
    println!("accepted");

    let w = operand_bytes(m as usize);
    let (mut a, mut b, mut c, mut inverted) = (vec![0; w], vec![0; w], vec![0; w], vec![0; w]);
    (a[0], b[0]) = (0x03, 0x1d);
    product(m, table, &a, &b, &mut c)?;
    println!("{:02x} * {:02x} = {:02x}", a[0], b[0], c[0]);
    let (products, _) = inverse(m, table, &a, &mut inverted)?;
    println!("inverse of {:02x} = {:02x}, {} products", a[0], inverted[0], products);
    product(m, table, &a, &inverted, &mut c)?;
    println!("{:02x} * {:02x} = {:02x}", a[0], inverted[0], c[0]);
    // The power 2^k is the turn by k, whatever k is.
    turn(m, &a, 1001, &mut c)?;
    println!("{:02x} to the power 2^1001 = {:02x}", a[0], c[0]);

    let (ands, xors) = counts_reduced(m, table)?;
    let mut list = vec![0; list_words(m as usize, ands as usize, xors as usize)];
    list_reduced(m, table, &mut list)?;
    println!("reduced list: {} AND, {} XOR, {} words", ands, xors, list.len());

    let mut written = vec![0; card_bytes(m as usize)];
    let (length, _) = card_write(m, table, &mut written)?;
    let same = written[..length as usize] == CARD;
    println!("card: {} bytes, {}", length, if same { "as it was read" } else { "another" });

    table[1] ^= 1;
    if let Err((5, d, _)) = check(m, table) {
        println!("a damaged table: fault 5, rows {} and {} differ", d, m - d);
    }
    Ok(())
}

fn main() {
    if let Err((number, _, _)) = run() {
        println!("fault {}", number);
    }
}
