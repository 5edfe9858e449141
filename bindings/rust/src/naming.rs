//! Named settings and the viewer, as a Rust program holds them.

mod c {
    extern "C" {
        pub fn rcst_kinds_check(table: *const u32, numbers: usize) -> usize;
        pub fn rcst_named_insert(
            store: *mut u8,
            length: usize,
            table: *const u32,
            numbers: usize,
            key: u32,
            value: u32,
        ) -> u32;
        pub fn rcst_named_delete(
            store: *mut u8,
            length: usize,
            table: *const u32,
            numbers: usize,
            key: u32,
        ) -> u32;
        pub fn rcst_view_open(store: *const u8, length: usize, version: u32) -> u32;
        pub fn rcst_view_value(
            store: *const u8,
            length: usize,
            version: u32,
            table: *const u32,
            numbers: usize,
            key: u32,
            found: *mut u32,
            value: *mut u32,
        ) -> u32;
        pub fn rcst_view_whole(
            store: *const u8,
            length: usize,
            version: u32,
            table: *const u32,
            numbers: usize,
            key: u32,
            found: *mut u32,
            value: *mut u32,
        ) -> u32;
        pub fn rcst_view_switch(
            store: *const u8,
            length: usize,
            version: u32,
            table: *const u32,
            numbers: usize,
            key: u32,
            found: *mut u32,
            value: *mut u32,
        ) -> u32;
        pub fn rcst_view_level(
            store: *const u8,
            length: usize,
            version: u32,
            table: *const u32,
            numbers: usize,
            key: u32,
            found: *mut u32,
            bits: *mut u32,
            level: *mut f32,
        ) -> u32;
        pub fn rcst_view_range(
            store: *const u8,
            length: usize,
            version: u32,
            table: *const u32,
            numbers: usize,
            low: u32,
            high: u32,
            list: *mut u32,
            room: usize,
            count: *mut usize,
        ) -> u32;
    }
}

/// The first wrong row of a table of kinds, counted from 1, or 0.
pub fn kinds_check(table: &[u32]) -> usize {
    unsafe { c::rcst_kinds_check(table.as_ptr(), table.len()) }
}

/// Inserts a setting of a known key, if its value is of the kind.
pub fn insert(store: &mut [u8], table: &[u32], key: u32, value: u32) -> u32 {
    unsafe {
        c::rcst_named_insert(
            store.as_mut_ptr(),
            store.len(),
            table.as_ptr(),
            table.len(),
            key,
            value,
        )
    }
}

/// Deletes a setting of a known key.
pub fn delete(store: &mut [u8], table: &[u32], key: u32) -> u32 {
    unsafe {
        c::rcst_named_delete(
            store.as_mut_ptr(),
            store.len(),
            table.as_ptr(),
            table.len(),
            key,
        )
    }
}

/// The number that opening a viewer on a store and one version gives.
pub fn opens(store: &[u8], version: u32) -> u32 {
    unsafe { c::rcst_view_open(store.as_ptr(), store.len(), version) }
}

/// A reader opened once on a store and one version, with the kinds that its
/// program knows.
#[derive(Clone, Copy)]
pub struct Viewer<'a> {
    store: &'a [u8],
    version: u32,
    table: &'a [u32],
}

type Looks =
    unsafe extern "C" fn(*const u8, usize, u32, *const u32, usize, u32, *mut u32, *mut u32) -> u32;

impl<'a> Viewer<'a> {
    /// A viewer, or the number that speaks against it.
    pub fn open(store: &'a [u8], version: u32, table: &'a [u32]) -> Result<Viewer<'a>, u32> {
        match opens(store, version) {
            0 => Ok(Viewer::unasked(store, version, table)),
            number => Err(number),
        }
    }

    /// A viewer that was not opened: each lookup judges what it needs itself.
    pub fn unasked(store: &'a [u8], version: u32, table: &'a [u32]) -> Viewer<'a> {
        Viewer {
            store,
            version,
            table,
        }
    }

    fn look(self, looks: Looks, key: u32) -> (u32, bool, u32) {
        let (mut found, mut value) = (0, 0);
        let number = unsafe {
            looks(
                self.store.as_ptr(),
                self.store.len(),
                self.version,
                self.table.as_ptr(),
                self.table.len(),
                key,
                &mut found,
                &mut value,
            )
        };
        (number, found == 1, value)
    }

    /// The number, whether the key is alive, and its value.
    pub fn value(self, key: u32) -> (u32, bool, u32) {
        self.look(c::rcst_view_value, key)
    }

    /// The same of a key that is a whole number.
    pub fn whole(self, key: u32) -> (u32, bool, u32) {
        self.look(c::rcst_view_whole, key)
    }

    /// The same of a key that is a switch.
    pub fn switch(self, key: u32) -> (u32, bool, u32) {
        self.look(c::rcst_view_switch, key)
    }

    /// The same of a key that is a level, and the float.
    pub fn level(self, key: u32) -> (u32, bool, u32, f32) {
        let (mut found, mut bits, mut level) = (0, 0, 0.0);
        let number = unsafe {
            c::rcst_view_level(
                self.store.as_ptr(),
                self.store.len(),
                self.version,
                self.table.as_ptr(),
                self.table.len(),
                key,
                &mut found,
                &mut bits,
                &mut level,
            )
        };
        (number, found == 1, bits, level)
    }

    /// The number and the count of settings from low to high; these go to the
    /// list, if every key is known.
    pub fn range(self, low: u32, high: u32, list: &mut [u32]) -> (u32, usize) {
        let (bytes, length) = (self.store.as_ptr(), self.store.len());
        let (table, numbers) = (self.table.as_ptr(), self.table.len());
        crate::counted(list, |list, room, count| unsafe {
            c::rcst_view_range(
                bytes,
                length,
                self.version,
                table,
                numbers,
                low,
                high,
                list,
                room,
                count,
            )
        })
    }
}
