//! Damage to rule 8: live counts that are not right. No other rule, and no
//! reading, asks for them. Edition 1 has none.

use super::{some_page, OnBytes};
use crate::edition::Edition;
use crate::image::Image;
use crate::layout::{Page, ALIVE};
use crate::rng::Rng;
use crate::store;

pub const KINDS: &[(&str, OnBytes)] = &[
    ("a live count one beside", beside),
    ("a live count of 41 to 63", too_high),
    ("a live count that is any other", any_other),
    ("a killed page with a live count", of_a_killed_page),
    ("a live count that counts the dead", counts_the_dead),
];

/// Gives the live count of some page that fits what `other` makes of it.
fn set(
    bytes: &mut [u8],
    rng: &mut Rng,
    fits: fn(&Page) -> bool,
    other: impl Fn(&Page, &mut Rng) -> u32,
) -> bool {
    let Some(live_count) = Edition::of(bytes).live_count else {
        return false;
    };
    let image = Image::read(bytes);
    let Some(number) = some_page(&image, rng, fits) else {
        return false;
    };
    let told = other(image.page(number), rng);
    live_count.set(store::page_bytes_mut(bytes, number), told);
    told != image.page(number).live_at_last()
}

fn beside(bytes: &mut [u8], rng: &mut Rng) -> bool {
    set(
        bytes,
        rng,
        |_| true,
        |page, rng| {
            let live = page.live_at_last();
            if live > 0 && rng.once_in(2) {
                live - 1
            } else {
                live + 1
            }
        },
    )
}

fn too_high(bytes: &mut [u8], rng: &mut Rng) -> bool {
    set(bytes, rng, |_| true, |_, rng| rng.between(41, 63))
}

fn any_other(bytes: &mut [u8], rng: &mut Rng) -> bool {
    set(bytes, rng, |_| true, |_, rng| rng.below(64))
}

fn of_a_killed_page(bytes: &mut [u8], rng: &mut Rng) -> bool {
    let killed = |page: &Page| page.span.end != ALIVE;
    set(bytes, rng, killed, |_, rng| rng.between(1, 40))
}

fn counts_the_dead(bytes: &mut [u8], rng: &mut Rng) -> bool {
    let has_dead = |page: &Page| page.live_at_last() < page.entries.len() as u32;
    set(bytes, rng, has_dead, |page, _| page.entries.len() as u32)
}
