//! The numbers that calls give, by name and in words: those of `include/rcst.h`.

pub const DONE: u32 = 0;
pub const WRONG_LENGTH: u32 = 1;
pub const WRONG_FIRST_BYTES: u32 = 2;
pub const WRONG_EDITION: u32 = 3;
pub const NOT_SOUND: u32 = 4;
pub const KEY_TOO_LARGE: u32 = 5;
pub const VERSION_ABOVE_LAST: u32 = 6;
pub const NO_UPDATE_OPEN: u32 = 7;
pub const UPDATE_ALREADY_OPEN: u32 = 8;
pub const VERSIONS_USED_UP: u32 = 9;
pub const KEY_ALIVE: u32 = 10;
pub const KEY_NOT_ALIVE: u32 = 11;
pub const NO_PAGE_FREE: u32 = 12;
pub const NO_SLOT_FREE: u32 = 13;
pub const LIST_TOO_SHORT: u32 = 14;
pub const NOTHING_CHANGED: u32 = 15;
pub const VALUE_NOT_ADMITTED: u32 = 16;
pub const KEY_UNKNOWN: u32 = 17;

const WORDS: [&str; 18] = [
    "done",
    "length not 6 to 4,096 whole pages of the edition",
    "first four bytes wrong",
    "edition neither 1 nor 2 (prune: not 2; convert: source not 1)",
    "not sound (lookup, range: the header, a slot, or a page of their own walk is wrong, or the walk cannot go on)",
    "key too large (insert: 16,776,960 or above), or range low above high",
    "version above last or below the oldest (of a difference: either version; of a return or a prune: above current)",
    "no update open (insert, delete, return, commit, abandon)",
    "update already open (open, prune, convert)",
    "current is 1,048,574 (open)",
    "key alive (insert)",
    "key not alive (delete)",
    "the rules need a page and none is free",
    "the rules need a 257th slot (edition 2: a 513th)",
    "caller's list holds fewer numbers than two for each setting found (range), three for each stretch (life), four for each difference (difference), one for each page visited (visits)",
    "the open version's settings equal the current version's, key for key (commit)",
    "value not of the key's kind or outside its limits (named insert), or key of another kind (viewer)",
    "key unknown to the table of kinds, or met in a range (named settings, viewer)",
];

/// When a number is given, in the header's words; none for what is no number of
/// this library.
pub fn words(number: u32) -> Option<&'static str> {
    WORDS.get(number as usize).copied()
}
