//! LMDB with an entry for each change of a key, in a file in memory (/dev/shm), with the flags that suit it best: no waiting for a
//! disc, pages written where they stand in the map, and no lock, as there is one thread. One write transaction a release, and one
//! to read for the lookups between two.

#[cfg(lmdb)]
mod linked {
    use std::ffi::{c_char, c_int, c_uint, c_void, CString};
    use std::mem::zeroed;
    use std::path::PathBuf;
    use std::ptr::null_mut;

    use others::{History, Versions};

    /// What only LMDB looks into.
    type Environment = *mut c_void;
    type Transaction = *mut c_void;
    type Cursor = *mut c_void;

    #[repr(C)]
    struct Bytes {
        size: usize,
        data: *const c_void,
    }

    /// `MDB_envinfo`
    #[repr(C)]
    struct Info {
        address: *mut c_void,
        map_size: usize,
        last_page: usize,
        last_transaction: usize,
        readers: [c_uint; 2],
    }

    const NOSUBDIR: c_uint = 0x4000;
    const NOSYNC: c_uint = 0x10000;
    const RDONLY: c_uint = 0x20000;
    const WRITEMAP: c_uint = 0x80000;
    const NOLOCK: c_uint = 0x400000;
    const INTEGERKEY: c_uint = 0x08;
    const NOTFOUND: c_int = -30798;
    const LAST: c_int = 6;
    const NEXT: c_int = 8;
    const PREV: c_int = 12;
    const SET_RANGE: c_int = 17;
    const PAGE: usize = 4096;
    const MAP: usize = 1 << 30;

    extern "C" {
        fn mdb_env_create(made: *mut Environment) -> c_int;
        fn mdb_env_set_mapsize(environment: Environment, size: usize) -> c_int;
        fn mdb_env_open(
            environment: Environment,
            path: *const c_char,
            flags: c_uint,
            mode: c_uint,
        ) -> c_int;
        fn mdb_env_info(environment: Environment, info: *mut Info) -> c_int;
        fn mdb_txn_begin(
            environment: Environment,
            parent: Transaction,
            flags: c_uint,
            made: *mut Transaction,
        ) -> c_int;
        fn mdb_txn_commit(transaction: Transaction) -> c_int;
        fn mdb_txn_abort(transaction: Transaction);
        fn mdb_dbi_open(
            transaction: Transaction,
            name: *const c_char,
            flags: c_uint,
            made: *mut c_uint,
        ) -> c_int;
        fn mdb_cursor_open(transaction: Transaction, base: c_uint, made: *mut Cursor) -> c_int;
        fn mdb_cursor_close(cursor: Cursor);
        fn mdb_cursor_get(cursor: Cursor, key: *mut Bytes, data: *mut Bytes, what: c_int) -> c_int;
        fn mdb_cursor_put(
            cursor: Cursor,
            key: *mut Bytes,
            data: *mut Bytes,
            flags: c_uint,
        ) -> c_int;
        fn mdb_cursor_del(cursor: Cursor, flags: c_uint) -> c_int;
    }

    /// A transaction and the cursor in it.
    type Way = (Transaction, Cursor);

    /// A key's last change up to a version: from when on, and the value, or none where it was deleted.
    type Change = (u32, Option<u32>);

    pub struct Tree {
        environment: Environment,
        path: PathBuf,
        base: c_uint,
        versions: Versions,
        way: Option<Way>,
    }

    fn fine(code: c_int) {
        assert_eq!(code, 0, "LMDB's number");
    }

    /// One number, which LMDB compares as one (some sixth fewer instructions a lookup than eight bytes): a key's changes stand
    /// together, by version.
    fn name(key: u32, version: u32) -> [u8; 8] {
        ((u64::from(key) << 32) | u64::from(version)).to_ne_bytes()
    }

    fn lent(bytes: &[u8]) -> Bytes {
        Bytes {
            size: bytes.len(),
            data: bytes.as_ptr().cast(),
        }
    }

    fn change(key: u32, at: &Bytes, data: &Bytes) -> Option<Change> {
        let name = unsafe { at.data.cast::<u64>().read_unaligned() };
        if (name >> 32) as u32 != key {
            return None;
        }
        let value = (data.size == 4).then(|| unsafe { data.data.cast::<u32>().read_unaligned() });
        Some((name as u32, value))
    }

    /// The cursor stands on the change, if there is one.
    fn up_to(cursor: Cursor, key: u32, version: u32) -> Option<Change> {
        let behind = name(key, version + 1);
        let (mut at, mut data) = (lent(&behind), lent(&[]));
        unsafe {
            let code = match mdb_cursor_get(cursor, &mut at, &mut data, SET_RANGE) {
                NOTFOUND => mdb_cursor_get(cursor, &mut at, &mut data, LAST),
                _ => mdb_cursor_get(cursor, &mut at, &mut data, PREV),
            };
            match code {
                NOTFOUND => None,
                code => {
                    fine(code);
                    change(key, &at, &data)
                }
            }
        }
    }

    /// Whether the change before the one on which the cursor stands is a value of the same key; the cursor stays.
    fn value_before(cursor: Cursor, key: u32, version: u32) -> bool {
        let (mut at, mut data) = (lent(&[]), lent(&[]));
        unsafe {
            if mdb_cursor_get(cursor, &mut at, &mut data, PREV) == NOTFOUND {
                up_to(cursor, key, version);
                return false;
            }
            let before = change(key, &at, &data);
            fine(mdb_cursor_get(cursor, &mut at, &mut data, NEXT));
            matches!(before, Some((_, Some(_))))
        }
    }

    fn put(cursor: Cursor, key: u32, version: u32, value: &[u8]) {
        let name = name(key, version);
        fine(unsafe { mdb_cursor_put(cursor, &mut lent(&name), &mut lent(value), 0) });
    }

    impl Tree {
        pub fn new() -> Tree {
            let path = PathBuf::from(format!("/dev/shm/rcst-lmdb-{}", std::process::id()));
            let name = CString::new(path.to_str().expect("plain")).expect("no zero");
            let mut environment = null_mut();
            unsafe {
                fine(mdb_env_create(&mut environment));
                fine(mdb_env_set_mapsize(environment, MAP));
                let flags = NOSUBDIR | NOSYNC | WRITEMAP | NOLOCK;
                fine(mdb_env_open(environment, name.as_ptr(), flags, 0o600));
            }
            let mut tree = Tree {
                environment,
                path,
                base: 0,
                versions: Versions::default(),
                way: None,
            };
            let mut made = null_mut();
            unsafe {
                fine(mdb_txn_begin(environment, null_mut(), 0, &mut made));
                fine(mdb_dbi_open(made, null_mut(), INTEGERKEY, &mut tree.base));
                fine(mdb_txn_commit(made));
            }
            tree
        }

        fn begun(&mut self, flags: c_uint) -> Cursor {
            let (mut transaction, mut cursor) = (null_mut(), null_mut());
            unsafe {
                fine(mdb_txn_begin(
                    self.environment,
                    null_mut(),
                    flags,
                    &mut transaction,
                ));
                fine(mdb_cursor_open(transaction, self.base, &mut cursor));
            }
            self.way = Some((transaction, cursor));
            cursor
        }

        fn ended(&mut self, kept: bool) {
            let Some((transaction, cursor)) = self.way.take() else {
                return;
            };
            unsafe {
                mdb_cursor_close(cursor);
                match kept {
                    true => fine(mdb_txn_commit(transaction)),
                    false => mdb_txn_abort(transaction),
                }
            }
        }

        /// The cursor of the transaction that is there; else one to read begins.
        fn cursor(&mut self) -> Cursor {
            match self.way {
                Some((_, cursor)) => cursor,
                None => self.begun(RDONLY),
            }
        }
    }

    impl History for Tree {
        fn open(&mut self) -> Result<(), u32> {
            self.versions.begin()?;
            self.ended(false);
            self.begun(0);
            Ok(())
        }

        fn insert(&mut self, key: u32, value: u32) -> Result<(), u32> {
            let open = self.versions.opened()?;
            let cursor = self.cursor();
            if let Some((_, Some(_))) = up_to(cursor, key, open) {
                return Err(10);
            }
            put(cursor, key, open, &value.to_ne_bytes());
            Ok(())
        }

        /// What came in at the open version goes, unless an older value would show.
        fn delete(&mut self, key: u32) -> Result<(), u32> {
            let open = self.versions.opened()?;
            let cursor = self.cursor();
            let Some((start, Some(_))) = up_to(cursor, key, open) else {
                return Err(11);
            };
            if start == open && !value_before(cursor, key, open) {
                fine(unsafe { mdb_cursor_del(cursor, 0) });
            } else {
                put(cursor, key, open, &[]);
            }
            Ok(())
        }

        fn commit(&mut self) -> Result<(), u32> {
            self.versions.end(true)?;
            self.ended(true);
            Ok(())
        }

        fn abandon(&mut self) -> Result<(), u32> {
            self.versions.end(false)?;
            self.ended(false);
            Ok(())
        }

        fn get(&mut self, key: u32, version: u32) -> Result<Option<u32>, u32> {
            self.versions.readable(version)?;
            let cursor = self.cursor();
            Ok(up_to(cursor, key, version).and_then(|(_, value)| value))
        }

        fn bytes(&self) -> usize {
            unsafe {
                let mut info: Info = zeroed();
                fine(mdb_env_info(self.environment, &mut info));
                (info.last_page + 1) * PAGE
            }
        }
    }

    impl Drop for Tree {
        fn drop(&mut self) {
            std::fs::remove_file(&self.path).expect("the file in /dev/shm");
        }
    }
}

#[cfg(lmdb)]
fn main() -> std::io::Result<()> {
    others::run(|_| Ok(linked::Tree::new()))
}

#[cfg(not(lmdb))]
fn main() {
    panic!("LMDB was not there to be linked");
}
