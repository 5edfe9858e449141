//! Rule 1 in page 0.

use crate::plain::bits::first_set;
use crate::plain::page::{count, header, shape};

/// The last version that may be current while an update is open.
const LAST_BELOW_OPEN: u32 = 1_048_573;

pub fn wrong(store: &[u8]) -> Option<String> {
    let header = header(store);
    let pages = count(store);
    if header.pages as usize != pages {
        return Some(format!(
            "page 0: page count {}, and the file has {pages}",
            header.pages
        ));
    }
    if header.current > LAST_BELOW_OPEN + u32::from(!header.open) {
        return Some(format!(
            "page 0: current version {}, which is too high",
            header.current
        ));
    }
    let shape = shape(store);
    if header.roots as usize > shape.slots {
        return Some(format!("page 0: {} roots", header.roots));
    }
    if header.oldest > header.current {
        return Some(format!(
            "page 0: oldest version {}, above the current one, {}",
            header.oldest, header.current
        ));
    }
    let behind = 74 + shape.roots_width + shape.oldest_width;
    let bit = first_set(store, behind, 8 * shape.page_bytes)?;
    Some(format!("page 0: bit {bit} is set (byte {})", bit / 8))
}
