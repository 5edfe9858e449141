//! "The page rules for an update": from the leaf up, in a draft.

use crate::draft::{end_live, Draft};
use crate::layout::{Entry, Page, Span};
use crate::walk::{self, Step};

/// What a page is asked to change: live entries to end, by key (a live key
/// stands once in a page), and entries to add, which start at the open
/// version.
pub struct Change {
    drop: Vec<u32>,
    add: Vec<Entry>,
}

impl Change {
    pub fn insert(key: u32, value: u32, open: u32) -> Change {
        let span = Span::alive_from(open);
        Change {
            drop: Vec::new(),
            add: vec![Entry { key, span, value }],
        }
    }

    pub fn delete(key: u32) -> Change {
        Change {
            drop: vec![key],
            add: Vec::new(),
        }
    }

    /// The page's live entries at the open version with the change made.
    fn wanted(&self, page: &Page, open: u32) -> Vec<Entry> {
        let kept = page.live(open).filter(|e| !self.drop.contains(&e.key));
        let mut wanted: Vec<Entry> = kept.chain(&self.add).copied().collect();
        wanted.sort_by_key(Entry::order);
        wanted
    }

    /// The page's entries, dead ones too, with the change made.
    fn in_place(&self, page: &Page, open: u32) -> Vec<Entry> {
        let mut entries = page.entries.clone();
        end_live(&mut entries, open, |key| self.drop.contains(&key));
        entries.extend(&self.add);
        entries.sort_by_key(Entry::order);
        entries
    }
}

/// Plans the change at the leaf for `key` and what it asks of the pages above.
/// Gives the number of the refusal where the rules want a page or a slot and
/// there is none.
pub fn plan<'a>(bytes: &'a [u8], key: u32, change: Change) -> Result<Draft<'a>, u32> {
    let mut draft = Draft::new(bytes);
    let path = walk::path(bytes, key, draft.open_version());
    let fewest = draft.edition().fewest_live;
    let mut change = change;
    for depth in (1..path.len()).rev() {
        if change_in_place(&mut draft, path[depth].page, &change, fewest) {
            return Ok(draft);
        }
        change = restructure(&mut draft, path[depth - 1], path[depth], &change)?;
    }
    change_root(&mut draft, path[0].page, &change)?;
    Ok(draft)
}

/// A page takes its change in place if it then has at most 20 entries (40 in
/// edition 2), dead ones counted, and at least `fewest` live.
fn change_in_place(draft: &mut Draft, number: u32, change: &Change, fewest: usize) -> bool {
    let open = draft.open_version();
    let mut page = draft.page(number);
    page.entries = change.in_place(&page, open);
    let has_room = page.entries.len() <= draft.edition().most_entries;
    let fits = has_room && page.live(open).count() >= fewest;
    if fits {
        draft.put(number, page);
    }
    fits
}

/// Replaces a page below the root, and its neighbour where the rules add it,
/// and gives what the parent is asked to change.
fn restructure(
    draft: &mut Draft,
    parent: Step,
    child: Step,
    change: &Change,
) -> Result<Change, u32> {
    let open = draft.open_version();
    let page = draft.page(child.page);
    let mut entries = change.wanted(&page, open);
    let mut old = vec![child];
    if entries.len() < draft.edition().gathered_alone {
        let neighbour = neighbour(draft, parent.page, child);
        old.push(neighbour);
        entries.extend(draft.page(neighbour.page).live(open));
    }
    // Left before right: bounds are disjoint, so low keys order the pages as
    // keys order the entries.
    old.sort_by_key(|step| step.low);
    entries.sort_by_key(|entry| entry.key);
    let new = refill(draft, page.level, &old, &entries)?;
    Ok(replace_routers(&old, &new, open))
}

/// "Its neighbour under the same parent: the right one, else the left." The
/// parent has not been changed yet.
fn neighbour(draft: &Draft, parent: u32, child: Step) -> Step {
    let parent = draft.page(parent);
    let live = parent.live(draft.open_version());
    let (left, right): (Vec<&Entry>, Vec<&Entry>) = live
        .filter(|router| router.key != child.low)
        .partition(|router| router.key < child.low);
    let router = right.first().or(left.last());
    let router = router.expect("an index page has at least two live routers");
    Step {
        page: router.value,
        low: router.key,
    }
}

/// Puts the gathered entries of the `old` pages, which stand left first, into
/// one page or two, retires the old pages that are not used, and gives the
/// pages now used with their low keys.
fn refill(
    draft: &mut Draft,
    level: u32,
    old: &[Step],
    entries: &[Entry],
) -> Result<Vec<Step>, u32> {
    let parts = if entries.len() <= draft.edition().most_gathered {
        vec![entries]
    } else {
        // The lower half takes the odd one.
        let (lower, upper) = entries.split_at(entries.len().div_ceil(2));
        vec![lower, upper]
    };
    let pages = old.iter().map(|step| step.page);
    let (mut used, mut gone): (Vec<u32>, Vec<u32>) = pages.partition(|page| draft.is_active(*page));
    while used.len() < parts.len() {
        used.push(draft.take(level)?);
    }
    gone.extend(used.split_off(parts.len()));
    for number in gone {
        draft.retire(number);
    }
    let mut new = Vec::new();
    for (number, part) in used.into_iter().zip(parts) {
        draft.fill(number, level, part);
        // "The first new low key is the lowest old one; the second is the
        // second page's first key."
        let low = if new.is_empty() {
            old[0].low
        } else {
            part[0].key
        };
        new.push(Step { page: number, low });
    }
    Ok(new)
}

/// The parent drops the old routers and takes the new ones; one with the same
/// low key and page stays untouched.
fn replace_routers(old: &[Step], new: &[Step], open: u32) -> Change {
    let dropped = old.iter().filter(|step| !new.contains(step));
    let added = new.iter().filter(|step| !old.contains(step));
    Change {
        drop: dropped.map(|step| step.low).collect(),
        add: added.map(|step| router(*step, open)).collect(),
    }
}

fn router(step: Step, open: u32) -> Entry {
    Entry {
        key: step.low,
        span: Span::alive_from(open),
        value: step.page,
    }
}

fn change_root(draft: &mut Draft, number: u32, change: &Change) -> Result<(), u32> {
    let open = draft.open_version();
    let root = draft.page(number);
    let wanted = change.wanted(&root, open);
    // "First of all", before any test of room.
    if root.is_index() && wanted.len() == 1 {
        draft.retire(number);
        return draft.set_root(wanted[0].value);
    }
    if change_in_place(draft, number, change, 0) {
        return Ok(());
    }
    let old = Step {
        page: number,
        low: 0,
    };
    let new = refill(draft, root.level, &[old], &wanted)?;
    if new.len() == 1 {
        return draft.set_root(new[0].page);
    }
    // No root of level 7 (edition 2: of level 5) comes here: 4,096 pages are too
    // few for one to split.
    let above = draft.take(root.level + 1)?;
    let routers: Vec<Entry> = new.iter().map(|step| router(*step, open)).collect();
    draft.fill(above, root.level + 1, &routers);
    draft.set_root(above)
}
