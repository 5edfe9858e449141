//! Pictures: well-formed, with every leaf page and every change of a setting.

use reference::edition::EDITIONS;
use reference::history::{calls_of, KINDS};
use reference::image::Image;
use reference::layout::{Page, ALIVE};
use reference::rng::Rng;
use reference::{calls as plain, pruned, samples, store};
use tool::Folder;

/// Whether a text is XML as far as pictures go: one element around all, tags that
/// close in order, attributes in quotes, no bare `<` or `&` in the words.
fn well_formed(text: &str) -> Result<(), String> {
    let mut open: Vec<&str> = Vec::new();
    let mut rest = text.trim_end();
    while let Some(at) = rest.find('<') {
        if rest[..at].contains(['&', '>']) || (open.is_empty() && !rest[..at].trim().is_empty()) {
            return Err(format!("words: {}", &rest[..at]));
        }
        let end = rest.find('>').ok_or("a tag that does not end")?;
        let tag = &rest[at + 1..end];
        rest = &rest[end + 1..];
        if let Some(name) = tag.strip_prefix('/') {
            if open.pop() != Some(name) {
                return Err(format!("</{name}> closes another"));
            }
        } else {
            attributes(tag.trim_end_matches('/'))?;
            if !tag.ends_with('/') {
                open.push(tag.split(' ').next().ok_or("no name")?);
            }
        }
        if open.is_empty() && !rest.is_empty() {
            return Err("more than one element".into());
        }
    }
    match open.pop() {
        None => Ok(()),
        Some(name) => Err(format!("<{name}> is never closed")),
    }
}

/// A name, and then names and values by turns: each value in quotes, behind its `=`.
fn attributes(tag: &str) -> Result<(), String> {
    let parts: Vec<&str> = tag.split('"').collect();
    let (last, pairs) = parts.split_last().ok_or("no name")?;
    let named = |pair: &[&str]| pair.len() == 2 && pair[0].ends_with('=');
    let right = pairs.chunks(2).all(named) && !last.contains('=');
    match right && !tag.contains(['&', '<']) {
        true => Ok(()),
        false => Err(format!("<{tag}>")),
    }
}

#[test]
fn the_reader_of_xml_reads() {
    for good in [
        "<a/>",
        "<a><b c=\"d\"/>words</a>",
        "<a b=\"1\" c=\"2\"></a>\n",
    ] {
        assert_eq!(well_formed(good), Ok(()), "{good}");
    }
    for bad in [
        "<a>",
        "<a></b>",
        "<a/><b/>",
        "<a b=c/>",
        "<a>1 & 2</a>",
        "<a b=\"1/>",
    ] {
        assert!(well_formed(bad).is_err(), "{bad}");
    }
}

/// Stores that histories leave, and pruned ones with what no call leaves in them.
fn stores() -> Vec<Vec<u8>> {
    let of = |seed: usize| {
        let edition = EDITIONS[seed / KINDS.len()];
        calls_of(edition, seed as u64, KINDS[seed % KINDS.len()], 64, 300).1
    };
    let pruned = |seed: u64| {
        let mut bytes = samples::pruned_store(seed);
        pruned::unsettle(&mut bytes, &mut Rng::new(seed));
        bytes
    };
    (0..8).map(of).chain((0..16).map(pruned)).collect()
}

#[test]
fn every_leaf_is_a_box() {
    let folder = Folder::new();
    for (place, bytes) in stores().iter().enumerate() {
        folder.put("s", bytes);
        let svg = folder.done(&["draw", "s"], "");
        assert_eq!(well_formed(&svg), Ok(()), "store {place}");
        let image = Image::read(bytes);
        let header = store::header(bytes);
        for (number, page) in image.used() {
            let title = format!("<title>page {number}: ");
            let boxes: Vec<&str> = svg.split(&title[..]).skip(1).collect();
            // one that ended by the oldest version need not be reached
            if page.is_index() || page.span.end <= header.oldest {
                assert!(boxes.is_empty(), "store {place}, page {number}");
                continue;
            }
            assert_eq!(boxes.len(), 1, "store {place}, page {number}");
            let corners = corners(boxes[0]);
            for (key, version) in corners {
                let (given, way) = visited(bytes, key, version);
                assert_eq!(
                    (given, way.last()),
                    (0, Some(&number)),
                    "store {place}, key {key}, version {version}"
                );
            }
        }
        for version in [header.oldest, header.last()] {
            let tree = folder.done(&["draw", "s", "--tree", &format!("@{version}")], "");
            assert_eq!(well_formed(&tree), Ok(()), "store {place}");
            let (_, way) = visited(bytes, 0, version);
            for number in way {
                assert!(
                    tree.contains(&format!("<title>page {number}: ")),
                    "store {place}, page {number}"
                );
            }
        }
    }
}

/// The first and the last key of a box at its first version and at its last one, by
/// its words: `keys A to B, versions C to D`.
fn corners(words: &str) -> [(u32, u32); 4] {
    let words = words.split('<').next().expect("words");
    let numbers: Vec<u32> = words
        .split([' ', ','])
        .filter_map(|word| word.parse().ok())
        .collect();
    let [low, high, first, last] = numbers[..] else {
        panic!("{words}");
    };
    [(low, first), (high, first), (low, last), (high, last)]
}

fn visited(bytes: &[u8], key: u32, version: u32) -> (u32, Vec<u32>) {
    let mut list = vec![0; 7];
    let (number, count) = plain::visits(bytes, key, version, &mut list);
    list.truncate(count as usize);
    (number, list)
}

#[test]
fn dots_and_bars_are_the_lives_of_settings() {
    let folder = Folder::new();
    folder.done(&["new", "s", "64"], "");
    folder.done(&["apply", "s"], "set 1 1\nset 2 2\nset 3 3\n");
    folder.done(&["apply", "s"], "set 1 5\nunset 2\n");
    folder.done(&["apply", "s"], "set 2 2\n");
    let svg = folder.done(&["draw", "s"], "");
    assert_eq!(svg.matches("<circle").count(), 5);
    assert_eq!(svg.matches("stroke=\"#000\"").count(), 1);
    // splits copy entries: no new dots but for the keys that split them
    let many: String = (100..160).map(|key| format!("set {key} 1\n")).collect();
    folder.done(&["apply", "s"], &many);
    let svg = folder.done(&["draw", "s"], "");
    assert_eq!(svg.matches("<circle").count(), 65);
}

/// Of a pruned store versions begin at the oldest: a setting from before has its dot
/// there, and one that ended before is not there.
#[test]
fn a_pruned_picture_begins_at_the_oldest() {
    let folder = Folder::new();
    folder.done(&["new", "s", "64", "--edition", "2"], "");
    folder.done(&["apply", "s"], "set 1 1\nset 2 2\nset 3 3\n");
    folder.done(&["apply", "s"], "set 1 5\nunset 2\n");
    folder.done(&["apply", "s"], "set 4 4\nunset 3\n");
    let svg = folder.done(&["draw", "s"], "");
    assert_eq!(svg.matches("<circle").count(), 5);
    assert_eq!(svg.matches("stroke=\"#000\"").count(), 2);
    assert!(svg.contains("versions 0 to 3</title>"), "{svg}");
    folder.done(&["prune", "s", "2"], "");
    let svg = folder.done(&["draw", "s"], "");
    assert_eq!(well_formed(&svg), Ok(()));
    // keys 1 and 3 from version 2 on, key 4 at version 3; key 3 ends there
    assert_eq!(svg.matches("<circle").count(), 3);
    assert_eq!(svg.matches("stroke=\"#000\"").count(), 1);
    assert!(svg.contains("versions 2 to 3</title>"), "{svg}");
    assert!(
        !svg.contains("font-size=\"11\" fill=\"#345\">0</text>"),
        "{svg}"
    );
}

#[test]
fn a_picture_goes_to_its_file() {
    let folder = Folder::new();
    folder.done(&["new", "s", "6"], "");
    assert_eq!(folder.done(&["draw", "s", "-o", "s.svg"], ""), "");
    let svg = String::from_utf8(folder.bytes("s.svg")).expect("text");
    assert_eq!(well_formed(&svg), Ok(()));
    assert_eq!(folder.done(&["draw", "s"], ""), svg);
}

/// Thousands of versions: the axis names few of them, and boxes without room have
/// no numbers.
#[test]
fn many_versions_still_read() {
    let folder = Folder::new();
    let mut bytes = vec![0; 256 * 256];
    plain::fresh(&mut bytes);
    for version in 1..=3000u32 {
        reference::unjudged::open(&mut bytes);
        let key = version * 7919 % 400;
        reference::unjudged::delete(&mut bytes, key);
        if reference::unjudged::insert(&mut bytes, key, version) != 0 {
            reference::unjudged::abandon(&mut bytes);
            break;
        }
        assert_eq!(reference::unjudged::raw_commit(&mut bytes), 0);
    }
    folder.put("s", &bytes);
    assert!(store::header(&bytes).current > 1000);
    let svg = folder.done(&["draw", "s"], "");
    assert_eq!(well_formed(&svg), Ok(()));
    assert!(
        svg.matches("<text").count() < 400,
        "{}",
        svg.matches("<text").count()
    );
}

/// Thousands of keys, in hundreds of leaves.
#[test]
fn many_keys_still_read() {
    let folder = Folder::new();
    let mut bytes = vec![0; 2048 * 256];
    plain::fresh(&mut bytes);
    for version in 0..3u32 {
        reference::unjudged::open(&mut bytes);
        for key in 0..4000 {
            let key = 16_000_000 / 12_000 * (3 * key + version);
            assert_eq!(reference::unjudged::insert(&mut bytes, key, version), 0);
        }
        assert_eq!(reference::unjudged::raw_commit(&mut bytes), 0);
    }
    folder.put("s", &bytes);
    let svg = folder.done(&["draw", "s"], "");
    assert_eq!(well_formed(&svg), Ok(()));
    let pages: Vec<Page> = store::page_numbers(&bytes)
        .map(|number| store::page(&bytes, number))
        .filter(|page| !page.is_free())
        .collect();
    let leaves = pages.iter().filter(|page| page.level == 1).count();
    let (boxes, words) = (svg.matches(": keys ").count(), svg.matches("<text").count());
    assert!(boxes > 600 && words < 100, "{boxes} boxes, {words} words");
    assert_eq!(boxes, leaves);
    let tree = folder.done(&["draw", "s", "--tree", "@3"], "");
    assert_eq!(well_formed(&tree), Ok(()));
    let alive = pages.iter().filter(|page| page.span.end == ALIVE).count();
    assert_eq!(tree.matches(": level ").count(), alive);
}
