//! SQLite in memory with a table of a key's stretches, the prepared statements and settings that suit it best: one thread,
//! no count of memory, a journal in memory (an abandon needs one), no waiting for a disc, and one transaction a release,
//! or for the lookups between two.

#[cfg(sqlite)]
mod linked {
    use std::ffi::{c_char, c_int, c_void, CString};
    use std::ptr::null_mut;

    use others::{History, Versions};

    /// `sqlite3` and `sqlite3_stmt`, which only SQLite looks into.
    type Base = *mut c_void;
    type Statement = *mut c_void;

    const ROW: c_int = 100;
    const DONE: c_int = 101;
    const CONFIG_SINGLETHREAD: c_int = 1;
    const CONFIG_MEMSTATUS: c_int = 9;
    const PREPARE_PERSISTENT: u32 = 1;

    extern "C" {
        fn sqlite3_config(option: c_int, ...) -> c_int;
        fn sqlite3_open(name: *const c_char, base: *mut Base) -> c_int;
        fn sqlite3_prepare_v3(
            base: Base,
            words: *const c_char,
            length: c_int,
            flags: u32,
            statement: *mut Statement,
            rest: *mut *const c_char,
        ) -> c_int;
        fn sqlite3_bind_int64(statement: Statement, place: c_int, number: i64) -> c_int;
        fn sqlite3_step(statement: Statement) -> c_int;
        fn sqlite3_reset(statement: Statement) -> c_int;
        fn sqlite3_column_int64(statement: Statement, column: c_int) -> i64;
    }

    /// The end of a stretch that lasts.
    const NEVER: i64 = 1 << 40;

    pub struct Table {
        base: Base,
        versions: Versions,
        reading: bool,
        begin: Statement,
        keep: Statement,
        take_back: Statement,
        find: Statement,
        add: Statement,
        end: Statement,
        remove: Statement,
    }

    fn prepared(base: Base, words: &str) -> Statement {
        let text = CString::new(words).expect("no zero");
        let mut statement = null_mut();
        let code = unsafe {
            sqlite3_prepare_v3(
                base,
                text.as_ptr(),
                -1,
                PREPARE_PERSISTENT,
                &mut statement,
                null_mut(),
            )
        };
        assert_eq!(code, 0, "{words}");
        statement
    }

    /// Binds the numbers and takes the first step; a row's first three columns, if it gives one.
    fn stepped<const N: usize>(statement: Statement, numbers: [i64; N]) -> Option<[i64; 3]> {
        unsafe {
            for (place, number) in numbers.into_iter().enumerate() {
                sqlite3_bind_int64(statement, place as c_int + 1, number);
            }
            let row = match sqlite3_step(statement) {
                ROW => Some([0, 1, 2].map(|column| sqlite3_column_int64(statement, column))),
                DONE => None,
                code => panic!("SQLite gives {code}"),
            };
            sqlite3_reset(statement);
            row
        }
    }

    impl Table {
        pub fn new() -> Table {
            let mut base = null_mut();
            unsafe {
                sqlite3_config(CONFIG_SINGLETHREAD);
                sqlite3_config(CONFIG_MEMSTATUS, 0 as c_int);
                assert_eq!(sqlite3_open(c":memory:".as_ptr(), &mut base), 0);
            }
            for words in [
                "PRAGMA journal_mode = MEMORY",
                "PRAGMA synchronous = OFF",
                "PRAGMA locking_mode = EXCLUSIVE",
                "PRAGMA temp_store = MEMORY",
                "CREATE TABLE history (key INTEGER NOT NULL, start INTEGER NOT NULL, \"end\" INTEGER NOT NULL, \
                 value INTEGER NOT NULL, PRIMARY KEY (key, start)) WITHOUT ROWID",
            ] {
                stepped(prepared(base, words), []);
            }
            let statement = |words| prepared(base, words);
            Table {
                base,
                versions: Versions::default(),
                reading: false,
                begin: statement("BEGIN"),
                keep: statement("COMMIT"),
                take_back: statement("ROLLBACK"),
                find: statement(
                    "SELECT start, \"end\", value FROM history WHERE key = ?1 AND start <= ?2 \
                     ORDER BY start DESC LIMIT 1",
                ),
                add: statement("INSERT INTO history VALUES (?1, ?2, ?3, ?4)"),
                end: statement("UPDATE history SET \"end\" = ?3 WHERE key = ?1 AND start = ?2"),
                remove: statement("DELETE FROM history WHERE key = ?1 AND start = ?2"),
            }
        }

        /// The start and the value of the key's stretch at a version.
        fn at(&self, key: u32, version: u32) -> Option<(i64, u32)> {
            let [start, end, value] = stepped(self.find, [key.into(), version.into()])?;
            (i64::from(version) < end).then_some((start, value as u32))
        }

        fn number(&self, words: &str) -> i64 {
            let statement = prepared(self.base, words);
            unsafe {
                assert_eq!(sqlite3_step(statement), ROW, "{words}");
                sqlite3_column_int64(statement, 0)
            }
        }
    }

    impl History for Table {
        fn open(&mut self) -> Result<(), u32> {
            self.versions.begin()?;
            if self.reading {
                stepped(self.keep, []);
                self.reading = false;
            }
            stepped(self.begin, []);
            Ok(())
        }

        fn insert(&mut self, key: u32, value: u32) -> Result<(), u32> {
            let open = self.versions.opened()?;
            if self.at(key, open).is_some() {
                return Err(10);
            }
            stepped(self.add, [key.into(), open.into(), NEVER, value.into()]);
            Ok(())
        }

        fn delete(&mut self, key: u32) -> Result<(), u32> {
            let open = self.versions.opened()?;
            let (start, _) = self.at(key, open).ok_or(11u32)?;
            if start == i64::from(open) {
                stepped(self.remove, [key.into(), start]);
            } else {
                stepped(self.end, [key.into(), start, open.into()]);
            }
            Ok(())
        }

        fn commit(&mut self) -> Result<(), u32> {
            self.versions.end(true)?;
            stepped(self.keep, []);
            Ok(())
        }

        fn abandon(&mut self) -> Result<(), u32> {
            self.versions.end(false)?;
            stepped(self.take_back, []);
            Ok(())
        }

        fn get(&mut self, key: u32, version: u32) -> Result<Option<u32>, u32> {
            self.versions.readable(version)?;
            if !self.versions.open && !self.reading {
                stepped(self.begin, []);
                self.reading = true;
            }
            Ok(self.at(key, version).map(|(_, value)| value))
        }

        fn bytes(&self) -> usize {
            (self.number("PRAGMA page_count") * self.number("PRAGMA page_size")) as usize
        }
    }
}

#[cfg(sqlite)]
fn main() -> std::io::Result<()> {
    others::run(|_| Ok(linked::Table::new()))
}

#[cfg(not(sqlite))]
fn main() {
    panic!("SQLite was not there to be linked");
}
