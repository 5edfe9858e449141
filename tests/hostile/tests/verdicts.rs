//! The counting port answers as the reference program and as the proved library, with
//! any budget.

use hostile::judge::check;
use hostile::quick::budget;
use hostile::recipe::FAMILIES;
use hostile::search::climb;
use hostile::stores;
use reference::calls;
use reference::damage::{kinds, tamper};
use reference::layout::PAGE_BYTES;
use reference::rng::Rng;
use reference::samples::sound_store;

/// The verdict of all three; the port's with no budget at all, and with some.
fn judged(store: &[u8], name: &str) -> (u32, u32) {
    let verdict = calls::check(store);
    assert_eq!(host::check(store), verdict, "{name}");
    for left in [0, 1, 8, budget(store.len() / PAGE_BYTES)] {
        let (number, rule, _) = check(store, left);
        assert_eq!((number, rule), verdict, "{name}, budget {left}");
    }
    verdict
}

#[test]
fn damaged_stores() {
    for seed in 0..40 {
        let sound = sound_store(seed);
        assert_eq!(judged(&sound, "sound"), (0, 0));
        for kind in kinds() {
            let mut store = sound.clone();
            if kind.make(&mut store, &mut Rng::new(seed)) {
                assert_eq!(judged(&store, kind.name), (4, kind.rule), "{}", kind.name);
            }
        }
    }
}

#[test]
fn nearly_sound_stores() {
    for seed in 0..20 {
        let sound = sound_store(seed);
        let mut rng = Rng::new(seed);
        for _ in 0..40 {
            let mut store = sound.clone();
            for _ in 0..rng.between(1, 3) {
                tamper::set_some_field(&mut store, &mut rng);
            }
            judged(&store, "nearly sound");
        }
    }
}

/// The sums are met and every slot has a root, but the first root is outside its
/// slot's stretch.
#[test]
fn a_root_outside_its_stretch() {
    assert_eq!(judged(&stores::outside(), "outside"), (4, 6));
}

#[test]
fn hostile_stores() {
    for family in &FAMILIES {
        let mut rules = [0; 7];
        climb(family, 5, 40, 120, &mut |tried| {
            let verdict = judged(&tried.store, family.name);
            assert_eq!((tried.number, tried.rule), verdict);
            rules[verdict.1 as usize] += 1;
        });
        println!("{}: by rule {rules:?}", family.name);
        assert_eq!(rules[1..4], [0, 0, 0], "{}: rules 1 to 3 hold", family.name);
    }
}
