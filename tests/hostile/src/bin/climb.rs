//! The search by hand: `climb TIMES PAGES [SEED [FAMILY]]` tries so many stores of
//! each family, of at most so many pages, and prints the one with the most visits.

use hostile::recipe::FAMILIES;
use hostile::search::climb;
use reference::layout::PAGE_BYTES;

fn main() {
    let arguments: Vec<String> = std::env::args().skip(1).collect();
    let number = |place: usize, usual| match arguments.get(place) {
        Some(word) => word.parse().expect("a number"),
        None => usual,
    };
    let (times, pages, seed) = (number(0, 100), number(1, 600), number(2, 1));
    let wanted = arguments.get(3);
    for family in &FAMILIES {
        if wanted.is_some_and(|wanted| wanted != family.name) {
            continue;
        }
        let best = climb(family, u64::from(seed), times, pages as usize, &mut |_| ());
        let Some(best) = best else { continue };
        let named = family.numbers.iter().zip(&best.numbers);
        let named: Vec<String> = named
            .map(|((name, ..), own)| format!("{name} {own}"))
            .collect();
        println!(
            "{}: {} pages, {} visits, rule {}: {}\n  {:?}\n  {:?}",
            family.name,
            best.store.len() / PAGE_BYTES,
            best.visits(),
            best.rule,
            named.join(", "),
            best.judging,
            best.check
        );
    }
}
