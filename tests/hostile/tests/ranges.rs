//! Ranges on stores made to keep them busy: the counting port answers as the proved
//! library, and whatever store is tried, no more pages are visited than is said.

use hostile::ranges::{most_gone, most_written, range, Asked, Work};
use hostile::stores::grown;
use hostile::stores::spread::{spread, Keys, Spread, HIGH, PLAIN};
use reference::edition::{Edition, EDITIONS};
use reference::rng::Rng;

const WHOLE: Asked = Asked {
    low: 0,
    high: HIGH,
    version: 1,
};

/// The port's work. Its answer is the library's with no room at all and with some.
fn held(store: &[u8], asked: Asked, name: &str) -> Work {
    let pages = (store.len() / Edition::of(store).page_bytes) as u64;
    let mut most = Work::default();
    for room in [0, 10_000] {
        let (answer, work) = range(store, asked, room);
        let mut list = vec![1; room];
        let (number, count) = host::range(store, asked.low, asked.high, asked.version, &mut list);
        assert_eq!((number, count as u64), (answer.0, answer.1), "{name}");
        let untouched = std::iter::repeat(1);
        let expected = answer.2.iter().copied().chain(untouched).take(room);
        assert!(list.into_iter().eq(expected), "{name}: the list");
        assert!(work.judged <= pages, "{name}: {work:?}");
        assert!(
            work.gone <= most_gone(store, asked.version),
            "{name}: {work:?}"
        );
        let budgeted = work.gone == 0 && work.written <= pages;
        assert!(
            budgeted || work.written <= most_written(answer.1),
            "{name}: {work:?}"
        );
        most = work;
    }
    most
}

#[test]
fn one_page_a_level() {
    for depth in 2..=7 {
        for settings in [0, 1, 20] {
            for keys in [Keys::Behind, Keys::Same, Keys::Any] {
                let numbers = Spread {
                    depth,
                    settings,
                    keys,
                    ..PLAIN
                };
                let store = spread(numbers).expect("room");
                let work = held(&store, WHOLE, "one page a level");
                assert!(depth < 3 || work.gone > 0, "the budget is used up");
            }
        }
    }
}

/// "14 gives the exact count": twenty to the seventh.
#[test]
fn a_count_of_its_own_size() {
    let store = spread(PLAIN).expect("room");
    let (number, count) = host::range(&store, 0, HIGH, 1, &mut []);
    assert_eq!((number, count), (14, 20usize.pow(7)));
}

/// Settings in one leaf of many, so that most routers find nothing.
#[test]
fn mixtures() {
    let mut rng = Rng::new(4);
    for seed in 0..200 {
        let edition = EDITIONS[seed as usize % 2];
        let numbers = Spread {
            edition,
            seed,
            depth: rng.between(2, 7),
            wide: rng.between(1, 40),
            fan: rng.between(1, edition.most_entries as u32),
            settings: rng.between(0, 3),
            bare: rng.below(60),
            keys: [Keys::Behind, Keys::Same, Keys::Any][rng.below(3) as usize],
            crowd: rng.below(20),
        };
        let store = spread(numbers).expect("room");
        held(&store, WHOLE, "a mixture");
        let low = rng.below(HIGH);
        let high = rng.between(low, HIGH);
        let asked = Asked {
            low,
            high,
            version: rng.below(2),
        };
        held(&store, asked, "a mixture, in part");
    }
}

/// A router among many that leads to a page of another level: 4 goes before 14,
/// however late the walk comes to it.
#[test]
fn one_wrong_router() {
    for place in 0..20 {
        let mut image = reference::image::Image::read(&spread(PLAIN).expect("room"));
        let (number, _) = image.used().find(|(_, page)| page.level == 3).expect("one");
        image.page_mut(number).entries[place].value = number;
        let (number, count) = host::range(&image.write(), 0, HIGH, 1, &mut []);
        assert_eq!((number, count), (4, 0), "place {place}");
    }
}

/// On what a history leaves the budget is enough.
#[test]
fn histories() {
    for versions in [2, 30] {
        let store = grown(256, versions);
        for version in 0..=versions as u32 {
            for (low, high) in [(0, 16_777_215), (5_000_000, 6_000_000), (77, 77)] {
                let asked = Asked { low, high, version };
                assert_eq!(held(&store, asked, "a history").gone, 0);
            }
        }
    }
}
