//! The families of hostile stores, each with numbers as its only input, so that a
//! search can vary them. Every store holds rules 1 to 3.

use reference::edition::SECOND;

use crate::stores::crowd::{crowd, crowd_of, Crowd};
use crate::stores::pool::{pool, Pool};
use crate::stores::relay::{relay, Relay};
use crate::stores::shared::{cut_roots, in_turn, Shape};
use crate::stores::sketch::Sketch;
use crate::stores::storm::{self, Storm};
use crate::stores::tower::{tower, Tower};
use crate::stores::turns::{turns, Turns};
use crate::stores::walked::{broken_at_last, following, moving};
use crate::stores::web::{web, Web};
use crate::stores::with_stray;

/// A number of a recipe: its name, the least and the greatest.
pub type Number = (&'static str, u32, u32);

pub struct Family {
    pub name: &'static str,
    pub numbers: &'static [Number],
    /// None if it does not fit into 4,096 pages or a million versions.
    make: fn(&[u32]) -> Option<Vec<u8>>,
}

impl Family {
    /// The store, if the numbers lie where they may and it finds room.
    pub fn store(&self, numbers: &[u32]) -> Option<Vec<u8>> {
        assert_eq!(numbers.len(), self.numbers.len(), "{}", self.name);
        let inside = |(number, (_, low, high)): (&u32, &Number)| low <= number && number <= high;
        let all = numbers.iter().zip(self.numbers).all(inside);
        all.then(|| (self.make)(numbers))?
    }
}

const STORM: Number = ("a storm behind it", 0, 1);

fn stormed(store: Vec<u8>, storm: u32) -> Option<Vec<u8>> {
    match storm {
        0 => Some(store),
        _ => storm::behind(&store),
    }
}

/// Every family, with a short name.
pub const FAMILIES: [Family; 12] = [
    Family {
        name: "storm",
        numbers: &[
            ("groups", 1, 255),
            ("units", 2, 20),
            ("pairs", 1, 16),
            ("fan", 1, 20),
            ("depth", 1, 5),
            ("stagger", 0, 8),
            ("width", 1, 4000),
        ],
        make: |n| {
            let numbers = Storm {
                groups: n[0],
                units: n[1],
                pairs: n[2],
                fan: n[3],
                depth: n[4],
                stagger: n[5],
                width: n[6],
            };
            storm::alone(Sketch::new(), numbers)
        },
    },
    Family {
        name: "crowd",
        numbers: &[("crowd", 1, 3000), ("shared", 1, 20), ("lives", 1, 17)],
        make: |n| {
            crowd(Crowd {
                crowd: n[0],
                shared: n[1],
                lives: n[2],
            })
        },
    },
    Family {
        name: "shared",
        numbers: &[
            ("level", 1, 4),
            ("shared", 2, 20),
            ("lives", 1, 10),
            ("wide", 4, 16),
            ("roots", 1, 255),
            STORM,
        ],
        make: |n| {
            if n[1] * n[2] > 20 {
                return None;
            }
            let store = in_turn(Shape {
                shared_level: n[0],
                shared: n[1],
                lives: n[2],
                wide: n[3],
                roots: n[4],
            });
            stormed(store?, n[5])
        },
    },
    Family {
        name: "cut roots",
        numbers: &[("roots", 1, 255), STORM],
        make: |n| stormed(cut_roots(n[0]), n[1]),
    },
    Family {
        name: "flickering",
        numbers: &[("leaves", 2, 3870), ("rule", 4, 6), STORM],
        make: |n| stormed(broken_at_last(n[0], n[1]), n[2]),
    },
    Family {
        name: "moving",
        numbers: &[("times four leaves", 1, 800), ("stray", 0, 1), STORM],
        make: |n| {
            let store = moving(4 * n[0]);
            let store = if n[1] == 0 { store } else { with_stray(&store) };
            stormed(store, n[2])
        },
    },
    Family {
        name: "following",
        numbers: &[("tops", 1, 3000), ("leaves", 1, 3000), STORM],
        make: |n| {
            if n[0] + n[1] > 3800 {
                return None;
            }
            stormed(following(n[0], n[1]), n[2])
        },
    },
    Family {
        name: "tower",
        numbers: &[
            ("leaves", 1, 4000),
            ("staying", 0, 19),
            ("lives", 1, 20),
            ("fan", 1, 20),
            ("above", 1, 20),
            ("height", 2, 7),
            STORM,
        ],
        make: |n| {
            let store = tower(Tower {
                leaves: n[0],
                staying: n[1],
                lives: n[2],
                fan: n[3],
                above: n[4],
                height: n[5],
            });
            stormed(store?, n[6])
        },
    },
    Family {
        name: "turns",
        numbers: &[
            ("trees", 1, 40),
            ("wide", 1, 400),
            ("fan", 1, 20),
            ("leaves", 1, 20),
            ("lives", 1, 20),
            ("extra", 0, 20),
            STORM,
        ],
        make: |n| {
            let numbers = Turns {
                trees: n[0],
                wide: n[1],
                fan: n[2],
                leaves: n[3],
                lives: n[4],
                extra: n[5],
            };
            turns(Sketch::new(), numbers, n[6] == 1)
        },
    },
    Family {
        name: "pool",
        numbers: &[
            ("trees", 1, 400),
            ("wide", 1, 400),
            ("columns", 1, 800),
            ("shared", 2, 4),
            ("fan", 1, 20),
            ("leaves", 1, 20),
            ("lives", 1, 20),
            ("every", 1, 400),
            ("turning", 4, 7),
        ],
        make: |n| {
            let numbers = Pool {
                trees: n[0],
                wide: n[1],
                columns: n[2],
                shared: n[3],
                fan: n[4],
                leaves: n[5],
                lives: n[6],
                every: n[7],
                turning: n[8],
            };
            pool(Sketch::new(), numbers)
        },
    },
    Family {
        name: "relay",
        numbers: &[
            ("groups", 1, 8),
            ("trees", 1, 100),
            ("wide", 4, 20),
            ("leaves", 4, 20),
            ("lives", 1, 16),
            STORM,
        ],
        make: |n| {
            let numbers = Relay {
                groups: n[0],
                trees: n[1],
                wide: n[2],
                leaves: n[3],
                lives: n[4],
            };
            stormed(relay(Sketch::new(), numbers)?, n[5])
        },
    },
    Family {
        name: "web",
        numbers: &[
            ("seed", 0, 1_000_000),
            ("depth", 2, 7),
            ("wide", 1, 1500),
            ("fan", 1, 20),
            ("staying", 1, 8),
            ("stagger", 0, 40),
            ("life", 1, 4000),
            ("step", 1, 20),
            ("astray", 0, 200),
        ],
        make: |n| {
            web(Web {
                seed: n[0],
                depth: n[1],
                wide: n[2],
                fan: n[3],
                staying: n[4],
                stagger: n[5],
                life: n[6],
                step: n[7],
                astray: n[8],
            })
        },
    },
];

/// The family of that name.
pub fn family(name: &str) -> &'static Family {
    let found = FAMILIES.iter().find(|family| family.name == name);
    found.expect("a family")
}

/// A line of the table: what it is, its family, and numbers for some 256 pages and
/// for as many as there may be.
pub struct Row {
    pub name: &'static str,
    pub family: &'static str,
    pub small: &'static [u32],
    pub large: &'static [u32],
}

const fn row(
    name: &'static str,
    family: &'static str,
    small: &'static [u32],
    large: &'static [u32],
) -> Row {
    Row {
        name,
        family,
        small,
        large,
    }
}

pub const ROWS: [Row; 19] = [
    row(
        "storm",
        "storm",
        &[9, 20, 16, 20, 5, 1, 2000],
        &[151, 20, 16, 20, 5, 1, 2000],
    ),
    row("crowd", "crowd", &[60, 5, 17], &[3000, 20, 17]),
    row(
        "shared at level 1",
        "shared",
        &[1, 4, 5, 4, 12, 0],
        &[1, 4, 5, 4, 255, 0],
    ),
    row(
        "shared at level 3",
        "shared",
        &[2, 5, 4, 8, 9, 0],
        &[3, 5, 4, 15, 255, 0],
    ),
    row("cut roots", "cut roots", &[248, 0], &[255, 0]),
    row(
        "flickering, rule 4",
        "flickering",
        &[236, 4, 0],
        &[3870, 4, 0],
    ),
    row(
        "flickering, rule 5",
        "flickering",
        &[236, 5, 0],
        &[3870, 5, 0],
    ),
    row(
        "flickering, rule 6",
        "flickering",
        &[236, 6, 0],
        &[3870, 6, 0],
    ),
    row("moving, sound", "moving", &[49, 0, 0], &[800, 0, 0]),
    row("moving, rule 6", "moving", &[49, 1, 0], &[800, 1, 0]),
    row("following", "following", &[115, 115, 0], &[1900, 1900, 0]),
    row(
        "tower",
        "tower",
        &[220, 0, 20, 20, 20, 7, 0],
        &[3840, 0, 20, 20, 20, 7, 0],
    ),
    row(
        "turns",
        "turns",
        &[2, 20, 3, 12, 20, 0, 0],
        &[6, 200, 8, 20, 20, 0, 0],
    ),
    row(
        "pool, shared up to level 3",
        "pool",
        &[2, 20, 20, 3, 2, 10, 6, 2, 6],
        &[3, 400, 400, 3, 2, 20, 20, 3, 7],
    ),
    row(
        "relay, a storm behind it",
        "relay",
        &[1, 4, 5, 4, 6, 1],
        &[2, 24, 20, 20, 16, 1],
    ),
    row(
        "moving, a storm behind it",
        "moving",
        &[43, 0, 1],
        &[790, 0, 1],
    ),
    row(
        "tower with four staying, a storm behind it",
        "tower",
        &[200, 4, 16, 20, 20, 3, 1],
        &[3820, 4, 16, 20, 20, 4, 1],
    ),
    row(
        "tower of few routers, a storm behind it",
        "tower",
        &[160, 4, 16, 5, 4, 5, 1],
        &[3072, 4, 16, 6, 4, 7, 1],
    ),
    row(
        "turns, a storm behind them",
        "turns",
        &[2, 20, 3, 12, 20, 20, 1],
        &[6, 190, 8, 20, 20, 20, 1],
    ),
];

/// Stores of edition 2, at some 256 pages and at as many as there may be; and the most busy one found of 2,048 pages, 1 MB.
pub fn second() -> Vec<(&'static str, Vec<u8>)> {
    let storm = |groups| Storm {
        groups,
        units: 31,
        pairs: 32,
        fan: 40,
        depth: 5,
        stagger: 1,
        width: 2000,
    };
    let crowding = |crowd, shared| Crowd {
        crowd,
        shared,
        lives: 18,
    };
    let turning = |trees, wide, fan, leaves, lives| Turns {
        trees,
        wide,
        fan,
        leaves,
        lives,
        extra: 0,
    };
    let sketch = || Sketch::of(&SECOND);
    let stores = [
        ("storm", storm::alone(sketch(), storm(6))),
        ("storm", storm::alone(sketch(), storm(104))),
        ("crowd", crowd_of(&SECOND, crowding(70, 2))),
        ("crowd", crowd_of(&SECOND, crowding(2000, 20))),
        ("turns", turns(sketch(), turning(2, 20, 3, 12, 20), false)),
        (
            "turns in 1 MB",
            turns(sketch(), turning(3, 190, 4, 40, 40), false),
        ),
        ("turns", turns(sketch(), turning(6, 200, 4, 40, 40), false)),
    ];
    let made = stores.into_iter();
    made.map(|(name, store)| (name, store.expect(name)))
        .collect()
}
