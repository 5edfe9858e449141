//! The calls as `include/rcst.h` declares them.

use crate::State;

extern "C" {
    pub fn rcst_fresh(store: *mut u8, length: usize) -> u32;
    pub fn rcst_fresh_second(store: *mut u8, length: usize) -> u32;
    pub fn rcst_convert(
        source: *const u8,
        source_length: usize,
        target: *mut u8,
        target_length: usize,
    ) -> u32;
    pub fn rcst_check(store: *const u8, length: usize, rule: *mut u32) -> u32;
    pub fn rcst_open(store: *mut u8, length: usize) -> u32;
    pub fn rcst_insert(store: *mut u8, length: usize, key: u32, value: u32) -> u32;
    pub fn rcst_delete(store: *mut u8, length: usize, key: u32) -> u32;
    pub fn rcst_commit(store: *mut u8, length: usize) -> u32;
    pub fn rcst_abandon(store: *mut u8, length: usize) -> u32;
    pub fn rcst_return(store: *mut u8, length: usize, version: u32) -> u32;
    pub fn rcst_prune(store: *mut u8, length: usize, version: u32) -> u32;
    pub fn rcst_lookup(
        store: *const u8,
        length: usize,
        key: u32,
        version: u32,
        found: *mut u32,
        value: *mut u32,
    ) -> u32;
    pub fn rcst_range(
        store: *const u8,
        length: usize,
        low: u32,
        high: u32,
        version: u32,
        list: *mut u32,
        room: usize,
        count: *mut usize,
    ) -> u32;
    pub fn rcst_visits(
        store: *const u8,
        length: usize,
        key: u32,
        version: u32,
        pages: *mut u32,
        room: usize,
        count: *mut usize,
    ) -> u32;
    pub fn rcst_difference(
        store: *const u8,
        length: usize,
        old: u32,
        new: u32,
        list: *mut u32,
        room: usize,
        count: *mut usize,
    ) -> u32;
    pub fn rcst_state(store: *const u8, length: usize, state: *mut State) -> u32;
    pub fn rcst_life(
        store: *const u8,
        length: usize,
        key: u32,
        list: *mut u32,
        room: usize,
        count: *mut usize,
    ) -> u32;
}
