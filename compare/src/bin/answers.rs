//! What the linked library answers: for each width and call how many inputs it was handed, good and damaged, and a digest of its answers
//! and of every buffer after them. The inputs come from the independent version and one seed, so that two libraries that print the
//! same lines have answered alike; compare/same-answers runs two. Calls that an earlier library doesn't have are made and not handed to
//! it, so that all others are the same for both.
//!
//!     answers GREATEST [GROUP..]    # widths 0 to GREATEST and some that no library takes; all groups of calls, or those named

use compare::bits::MAX_WIDTH;
use compare::calls::{Call, Group, Maker};
use compare::card::stated_width;
use std::collections::BTreeMap;
use std::hash::{DefaultHasher, Hash, Hasher};

/// How often the calls of a group are made at a width where one argument in so many is damaged.
const ROUNDS: usize = 8;
const HARMS: [usize; 3] = [0, 3, 12];

/// Widths beyond every greatest one, and such as would be good if their upper bits were lost.
const BEYOND: [usize; 5] = [65_536, 65_536 + 5, (1 << 32) + 5, usize::MAX - 1, usize::MAX];

/// Whether the call is handed in. A card may state a width that only one of two libraries takes; such a card is left out.
fn fits(call: &Call, greatest: usize) -> bool {
    let stated = match call {
        Call::card_read { card, .. } => stated_width(card),
        _ => None,
    };
    call.is_linked() && !stated.is_some_and(|m| (greatest + 1..=MAX_WIDTH).contains(&m))
}

/// What a call is counted under: its name, where turns by m or more, which earlier libraries refuse with 8, go apart.
fn kind(call: &Call) -> &'static str {
    match call {
        Call::turn { width, k, .. } if k >= width => "turn_round",
        _ => call.name(),
    }
}

fn main() {
    let mut arguments = std::env::args().skip(1);
    let greatest: usize = arguments.next().and_then(|text| text.parse().ok()).expect("usage: answers GREATEST [GROUP..]");
    let named: Vec<String> = arguments.collect();
    let is_named = |name: &str| named.is_empty() || named.iter().any(|other| other == name);
    let mut groups: Vec<(Group, usize)> = Maker::GROUPS.into_iter().filter(|(name, _)| is_named(name)).map(|(_, group)| (group, ROUNDS)).collect();
    if is_named("dense") {
        groups.push((Maker::dense, 1));
    }
    if is_named("earlier") {
        groups.push((Maker::earlier, ROUNDS));
    }
    assert!(!groups.is_empty(), "no group of the names {named:?}");
    let mut maker = Maker::new(1, 0);
    for width in (0..=greatest).chain(BEYOND) {
        let mut digests: BTreeMap<&str, (usize, DefaultHasher)> = BTreeMap::new();
        for harm in HARMS {
            maker.harm = harm;
            for (group, rounds) in &groups {
                for mut call in (0..*rounds).flat_map(|_| group(&mut maker, width)).filter(|call| fits(call, greatest)) {
                    let (count, digest) = digests.entry(kind(&call)).or_default();
                    *count += 1;
                    call.proved().hash(digest);
                    call.hash(digest);
                }
            }
        }
        for (name, (count, digest)) in digests {
            println!("{width} {name} {count} {:016x}", digest.finish());
        }
    }
}
