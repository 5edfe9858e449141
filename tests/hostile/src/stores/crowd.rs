//! An unsound store made to keep quick judging busy: a crowd of pages that lead
//! to the same twenty pages at the same versions. Each of them is right in
//! itself, and the spans add up, since at all other versions nothing leads
//! there. What is wrong shows in the pages above, which come last.

use reference::edition::{Edition, FIRST};
use reference::layout::{
    Page, Span, ALIVE, FIRST_PAGE, HIGHEST_LEVEL, HIGHEST_VERSION, LEAF, MOST_PAGES,
};

use super::entry;
use super::shared::{slot, Built};

#[derive(Clone, Copy)]
pub struct Crowd {
    /// The pages that lead to the same ones; some 3,000 fit into 4,096 pages.
    pub crowd: u32,
    /// The pages to which they lead.
    pub shared: u32,
    /// Lives of a last router, beside one fewer that stay than a page must have: in
    /// each of these lives another page comes last, with as many lives of its own last
    /// router.
    pub lives: u32,
}

/// The versions at which all of them stand: enough for all lives, and so few
/// that 3,000 times as many are no more than there are.
const WIDTH: u32 = ALIVE / 3000;
const ALL: Span = Span {
    start: HIGHEST_VERSION - WIDTH,
    end: HIGHEST_VERSION,
};

/// None if that is more than 4,096 pages.
pub fn crowd(numbers: Crowd) -> Option<Vec<u8>> {
    crowd_of(&FIRST, numbers)
}

pub fn crowd_of(edition: &'static Edition, numbers: Crowd) -> Option<Vec<u8>> {
    let before = Span {
        start: 0,
        end: ALL.start,
    };
    let mut built = Built {
        edition,
        pages: vec![Page::new(LEAF, before, Vec::new())],
        next_key: 0,
    };
    let shared: Vec<(u32, u32)> = (0..numbers.shared)
        .map(|_| shared_page(&mut built, numbers))
        .collect();
    let mut pages: Vec<u32> = (0..numbers.crowd)
        .map(|_| index_page(&mut built, 4, &shared))
        .collect();
    for level in 5..=HIGHEST_LEVEL {
        if pages.len() == 1 {
            break;
        }
        let groups = pages.chunks(edition.most_entries);
        let above = groups.map(|group| {
            let routers: Vec<(u32, u32)> = (0..).zip(group.iter().copied()).collect();
            index_page(&mut built, level, &routers)
        });
        pages = above.collect();
    }
    let behind = Page::new(LEAF, Span::alive_from(ALL.end), Vec::new());
    let behind = built.push(behind);
    let slots = vec![
        slot(0, FIRST_PAGE),
        slot(ALL.start, pages[0]),
        slot(ALL.end, behind),
    ];
    let fits = pages.len() == 1 && built.pages.len() + FIRST_PAGE as usize <= MOST_PAGES;
    fits.then(|| built.store(slots, HIGHEST_VERSION))
}

fn index_page(built: &mut Built, level: u32, routers: &[(u32, u32)]) -> u32 {
    let entries = routers.iter().map(|&(key, page)| entry(key, ALL, page));
    built.push(Page::new(level, ALL, entries.collect()))
}

/// A leaf with as many settings as fit: its low key and number.
fn leaf(built: &mut Built) -> (u32, u32) {
    let low = built.next_key;
    built.next_key += built.edition.most_entries as u32;
    let entries = (low..built.next_key).map(|key| entry(key, ALL, 7));
    (low, built.push(Page::new(LEAF, ALL, entries.collect())))
}

/// The lives of a last router within a span, the last of them up to its end.
fn lives(span: Span, lives: u32) -> impl Iterator<Item = Span> {
    let each = (span.end - span.start) / lives;
    (0..lives).map(move |life| {
        let start = span.start + each * life;
        let last = life + 1 == lives;
        let end = if last { span.end } else { start + each };
        Span { start, end }
    })
}

/// A page of level 3 to which the crowd leads: pages below it stay, one fewer than it
/// must have, and then one follows another. Its span is as long as those of all that lead to
/// it together.
fn shared_page(built: &mut Built, numbers: Crowd) -> (u32, u32) {
    let low = built.next_key;
    let fewest = built.edition.fewest_live;
    let mut routers = Vec::new();
    for _ in 1..fewest {
        let leaves: Vec<(u32, u32)> = (0..fewest).map(|_| leaf(built)).collect();
        let page = index_page(built, 2, &leaves);
        routers.push(entry(leaves[0].0, ALL, page));
    }
    let leaves: Vec<(u32, u32)> = (0..fewest).map(|_| leaf(built)).collect();
    for span in lives(ALL, numbers.lives) {
        let staying = leaves[..fewest - 1]
            .iter()
            .map(|&(key, page)| entry(key, span, page));
        let (key, page) = leaves[fewest - 1];
        let last = lives(span, numbers.lives).map(|life| entry(key, life, page));
        let page = built.push(Page::new(2, span, staying.chain(last).collect()));
        routers.push(entry(leaves[0].0, span, page));
    }
    let span = Span::alive_from(ALIVE - numbers.crowd * WIDTH);
    (low, built.push(Page::new(3, span, routers)))
}
