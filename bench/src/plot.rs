//! How check, judging and an update grow with pages and with versions:
//! docs/growth.svg, drawn from the numbers of one run.

use std::hint::black_box;

use hostile::stores;
use reference::number;

use crate::chart::{Chart, Measure, Panel, Point, Series};
use crate::{proved, updates};
use hostile::measure::in_turn;

const PATH: &str = concat!(env!("CARGO_MANIFEST_DIR"), "/../docs/growth.svg");

/// In the panel of pages every store has so many versions, in the panel of
/// versions so many pages.
const VERSIONS: usize = 32;
const PAGES: usize = 256;

/// The highest current version on which an update can be opened.
const MOST_VERSIONS: usize = 1_048_573;

pub fn plot() {
    let by_pages = (4..=12).map(|power| 1 << power);
    let by_versions = (0..10).map(|power| 1 << (2 * power)).chain([MOST_VERSIONS]);
    let chart = Chart {
        title: "How the time of a call grows".to_string(),
        note: "Medians of one run, joined; the upright lines are the quartiles. \
               No mark: an update that could not be told from judging."
            .to_string(),
        panels: vec![
            Panel {
                title: format!("with pages ({VERSIONS} versions)"),
                axis: "pages of the store".to_string(),
                measure: Measure::Time,
                series: series(by_pages.map(|pages| (pages, pages, VERSIONS))),
            },
            Panel {
                title: format!("with versions ({PAGES} pages)"),
                axis: "committed versions".to_string(),
                measure: Measure::Time,
                series: series(by_versions.map(|versions| (versions, PAGES, versions))),
            },
        ],
    };
    std::fs::write(PATH, chart.svg()).expect("docs/growth.svg");
    println!("docs/growth.svg is written.");
}

/// Measured on stores that are named by a place on the axis, pages and
/// versions.
fn series(stores: impl Iterator<Item = (usize, usize, usize)>) -> Vec<Series> {
    let mut all = [
        ("check, to the last rule and version", "#b3461f"),
        ("judging, before every call", "#1f5fa8"),
        ("an update, judging left out", "#2a8a57"),
    ]
    .map(|(name, colour)| Series {
        name,
        colour,
        dashed: false,
        points: Vec::new(),
    });
    for (place, pages, versions) in stores {
        let taken = [
            check(pages, versions),
            judging(pages, versions),
            updates::one_update(&updates::opened(pages, versions)),
        ];
        for (series, quartiles) in all.iter_mut().zip(taken) {
            series.points.push(Point { place, quartiles });
        }
    }
    all.into()
}

/// A check that goes to the end, by a store that breaks the last rule at the
/// last version.
fn check(pages: usize, versions: usize) -> [f64; 3] {
    let store = stores::with_stray(&stores::grown(pages - 1, versions));
    assert_eq!(proved::check(&store), (number::UNSOUND, 6));
    in_turn(&mut [&mut || proved::check(black_box(&store)).0.into()]).quartiles(0)
}

fn judging(pages: usize, versions: usize) -> [f64; 3] {
    let mut store = stores::grown(pages, versions);
    assert_eq!(proved::commit(&mut store), number::NONE_OPEN);
    in_turn(&mut [&mut || proved::commit(black_box(&mut store)).into()]).quartiles(0)
}
