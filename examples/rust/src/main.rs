//! Two releases, what differs between them, and going back: the store in an array,
//! with no heap and no file.

use rcst::limits::PAGE_BYTES;
use rcst::number::{words, DONE};

/// A call that must be done.
fn done(what: &str, number: u32) {
    let said = words(number).unwrap_or("not a number of this library");
    assert_eq!(number, DONE, "{what}: {said}");
}

/// One release: the settings as they are to be.
fn release(store: &mut [u8], version: u32, settings: &[(u32, u32)]) {
    done("open", rcst::open(store));
    for &(key, value) in settings {
        if let (DONE, true, _) = rcst::lookup(store, key, version) {
            done("delete", rcst::delete(store, key));
        }
        done("insert", rcst::insert(store, key, value));
    }
    done("commit", rcst::commit(store));
}

fn main() {
    let mut store = [0; 64 * PAGE_BYTES];
    done("fresh", rcst::fresh(&mut store));
    release(&mut store, 1, &[(40, 7), (41, 300)]);
    release(&mut store, 2, &[(40, 9)]);

    // what is signed before the release: four numbers a difference
    let mut list = [0; 4 * 50];
    let (number, count) = rcst::difference(&store, 1, 2, &mut list);
    done("difference", number);
    for one in list.chunks_exact(4).take(count) {
        println!("key {}: {} is now {}", one[0], one[2], one[3]);
    }

    // going back is also a release
    done("open", rcst::open(&mut store));
    done("return", rcst::return_to(&mut store, 1));
    done("commit", rcst::commit(&mut store));
    for version in 1..=3 {
        let (_, _, value) = rcst::lookup(&store, 40, version);
        println!("version {version}: key 40 is {value}");
    }
}
