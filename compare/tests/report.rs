//! The report program on cards and damaged cards, beside the independent version.

use compare::card;
use compare::field::Table;
use compare::inputs::{all_accepted, changed_pair, some_card, symmetric, Source, EDGES, METERS};
use std::io::Write;
use std::path::PathBuf;
use std::process::{Command, Stdio};

fn printed(program: &PathBuf, input: &[u8]) -> String {
    let mut child = Command::new(program).stdin(Stdio::piped()).stdout(Stdio::piped()).spawn().unwrap();
    // The program reads no more than it needs, and may end before all is written.
    let _ = child.stdin.take().unwrap().write_all(input);
    String::from_utf8(child.wait_with_output().unwrap().stdout).unwrap()
}

#[test]
fn report_program() {
    let program = PathBuf::from(env!("CARGO_MANIFEST_DIR")).join("../target/bin/report");
    assert!(program.exists(), "no {}: run `./report samples/good.card` first", program.display());
    let mut source = Source::new(3);
    let tables = all_accepted();
    let edges: Vec<_> = EDGES.into_iter().filter(|&m| m < 257).collect();
    let mut inputs: Vec<_> = (0..400)
        .map(|n| {
            let m = if n % 40 == 0 { edges[source.below(edges.len())] } else { 2 + source.below(20) };
            let changes = source.below(3);
            some_card(&mut source, &tables, m, changes)
        })
        .collect();
    // The independent check of an accepted table takes m² products: of the greater widths the least alone is accepted.
    let card = |m: usize, table: &[u8]| card::card(&Table::new(m, table));
    inputs.push(card(METERS[0], &tables[METERS[0]]));
    for m in METERS {
        inputs.push(card(m, &changed_pair(m, &tables[m], m / 2, 0)));
        inputs.push(inputs.last().unwrap().split_last().unwrap().1.to_vec());
        inputs.push(card(m, &symmetric(&mut source, m)));
    }
    inputs.extend([0, 65_535, 65_536, 65_537, 70_000].map(|length| vec![1; length]));
    let mut accepted = 0;
    for input in inputs {
        let expected = card::report(&input);
        accepted += usize::from(expected.contains("accepted"));
        let start = &input[..input.len().min(200)];
        assert_eq!(printed(&program, &input), expected, "card of {} bytes, {start:?}", input.len());
    }
    assert!(accepted > 20);
}
