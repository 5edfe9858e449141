//! Histories made for what those of `updates.rs` hardly meet: a list of exactly
//! 8, which is not under 8, and a page freed at one level that is taken at the
//! next (readings 21 and 22).

mod common;

use common::met::Met;
use common::rounds;
use reference::engine::Call;
use reference::number::DONE;
use reference::rng::Rng;
use reference::tall::{tall, Fill, Spine, GAP};
use reference::{store, walk};

/// A store for each program, and what was met on it.
struct Pair {
    met: Met,
    left: Vec<u8>,
    right: Vec<u8>,
}

impl Pair {
    fn on(met: Met, bytes: Vec<u8>) -> Pair {
        let (left, right) = (bytes.clone(), bytes);
        Pair { met, left, right }
    }

    fn call(&mut self, call: Call) -> u32 {
        self.met.call(call, &mut self.left, &mut self.right).number
    }

    /// The keys alive at the last version, from `low` up to, not including,
    /// `high`.
    fn alive(&self, low: u32, high: u32) -> Vec<u32> {
        let version = store::header(&self.left).last();
        let found = walk::range(&self.left, low, high - 1, version);
        found.into_iter().map(|(key, _)| key).collect()
    }
}

/// The low leaf of two is kept at 6 to 9 live entries and touched at every
/// version, so that it overflows by dead ones with 7 wanted, with 8 and with
/// more.
#[test]
fn exactly_eight() {
    let (mut met, mut rng) = (Met::default(), Rng::new(8));
    let high = 11 * GAP;
    for _ in 0..rounds(20) {
        let mut pair = Pair::on(met, vec![0; 64 * 256]);
        pair.call(Call::Fresh);
        pair.call(Call::Open);
        for key in 0..22 {
            assert_eq!(pair.call(Call::Insert(key * GAP, key)), DONE);
        }
        pair.call(Call::Commit);
        for _ in 0..50 {
            pair.call(Call::Open);
            for _ in 0..rng.between(1, 3) {
                let low = pair.alive(0, high);
                let shrinks = low.len() > 9 || (low.len() > 6 && rng.once_in(2));
                pair.call(match rng.pick(&low) {
                    Some(key) if shrinks => Call::Delete(*key),
                    _ => Call::Insert(rng.below(high), rng.word()),
                });
            }
            if pair.call(Call::Commit) != DONE {
                pair.call(Call::Abandon);
            }
        }
        met = pair.met;
    }
    println!("{met:?}");
    assert!(met.did("8 alone") > 5, "{met:?}");
}

/// A leaf full of dead entries and the one to its right are made anew, each by
/// itself; then they merge, which frees a page, and the page above them, left
/// with three routers, takes it.
#[test]
fn taken_at_the_next_level() {
    let (mut met, mut rng) = (Met::default(), Rng::new(9));
    let fills = [Fill::new(8, 12), Fill::new(5, 0), Fill::new(2, 0)];
    for round in 0..rounds(40) {
        let spine = [Spine::First, Spine::Middle][round as usize % 2];
        let built = tall(&fills, spine, rng.between(1, 4) as usize).expect("fits");
        let low = built.spine_keys[0];
        let high = low + 8 * GAP;
        let mut pair = Pair::on(met, built.store);
        pair.call(Call::Open);
        // The leaf to the right has four keys.
        let mut renewals = vec![Call::Delete(high + rng.below(4) * GAP)];
        for _ in 0..rng.between(1, 3) {
            renewals.push(Call::Insert(low + rng.below(8 * GAP), rng.word()));
        }
        rng.shuffle(&mut renewals);
        for call in renewals {
            pair.call(call);
        }
        for _ in 0..rng.between(6, 12) {
            if let Some(key) = rng.pick(&pair.alive(low, high)) {
                pair.call(Call::Delete(*key));
            }
        }
        pair.call(Call::Abandon);
        met = pair.met;
    }
    println!("{met:?}");
    assert!(met.did("freed and taken above") > 5, "{met:?}");
}
