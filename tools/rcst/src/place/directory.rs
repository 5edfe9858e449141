//! Rules 1 and 2 in the directory of roots, pages 1 to 4.

use crate::plain::page::{count, header, shape, slot, FIRST};

fn at(store: &[u8], place: usize) -> String {
    format!(
        "page {}, slot {place}",
        1 + 4 * place / shape(store).page_bytes
    )
}

/// Rule 1: pages that there are, and nothing in what is not used.
pub fn malformed(store: &[u8]) -> Option<String> {
    let used = header(store).roots as usize;
    (0..shape(store).slots).find_map(|place| match (place < used, slot(store, place)) {
        (true, (_, page)) if !(FIRST..count(store)).contains(&page) => Some(format!(
            "{}: root page {page}, which is none",
            at(store, place)
        )),
        (false, found) if found != (0, 0) => {
            Some(format!("{}: not used, and not zero", at(store, place)))
        }
        _ => None,
    })
}

/// Rule 2: one version at or below the oldest, then others above it that rise and
/// are at most the last one.
pub fn disordered(store: &[u8]) -> Option<String> {
    let header = header(store);
    let versions: Vec<u32> = (0..header.roots as usize)
        .map(|place| slot(store, place).0)
        .collect();
    if versions.is_empty() {
        return Some("page 0: no roots".into());
    }
    (0..versions.len()).find_map(|place| {
        let version = versions[place];
        let before = place.checked_sub(1).map(|place| versions[place]);
        match before {
            None if version > header.oldest => Some(format!(
                "{}: version {version}, above the oldest, {}",
                at(store, place),
                header.oldest
            )),
            Some(before) if version <= before => Some(format!(
                "{}: version {version} behind version {before}",
                at(store, place)
            )),
            Some(_) if version <= header.oldest => Some(format!(
                "{}: version {version}, a second one not above the oldest, {}",
                at(store, place),
                header.oldest
            )),
            _ if version > header.last() => Some(format!(
                "{}: version {version}, above the last, {}",
                at(store, place),
                header.last()
            )),
            _ => None,
        }
    })
}
