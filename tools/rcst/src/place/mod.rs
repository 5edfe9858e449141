//! Where a store is wrong: the page, version and entry at which the rule that
//! check names is broken, found by plain code that reads the bytes as
//! docs/FORMAT.md has them. It may be unable to tell, and says so.

mod directory;
mod entries;
mod header;
mod live;
mod spans;
mod walk;
mod young;

/// A rule of the format, in words.
pub fn rule(rule: u32) -> &'static str {
    match rule {
        1 => "a size, level, count, order, number or span is wrong, or a bit is set that no field covers",
        2 => "the directory's versions do not begin at the oldest, or below it, and rise from there to the last one",
        3 => "an entry's span leaves its page's, a router's its child's, a child is not one level lower, or a slot's page is free",
        4 => "at a version a page's keys do not lie between its bounds, or one stands there twice",
        5 => "at a version a page has too few entries alive",
        6 => "a page is not reached at every version of its span, or is at another one",
        7 => "a page that starts at the open version has entries that do not, or that ended",
        8 => "a page's number of entries alive is not theirs",
        _ => "not a rule that this program knows",
    }
}

/// Where a rule is broken. The lower ones hold, and the length is a store's.
pub fn of(store: &[u8], rule: u32) -> String {
    let found = match rule {
        1 => header::wrong(store)
            .or_else(|| directory::malformed(store))
            .or_else(|| entries::wrong(store)),
        2 => directory::disordered(store),
        3 => spans::wrong(store),
        4 | 5 => walk::wrong(store, rule),
        6 => walk::unreached(store),
        7 => young::wrong(store),
        8 => live::wrong(store),
        _ => None,
    };
    found.unwrap_or_else(|| "where: this program cannot tell".into())
}
