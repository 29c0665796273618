//! SQLite as it is linked here, and the history of objects kept in it: a row for each write, and
//! a read of a page as of a stamp by one prepared statement.

use std::ffi::{c_char, c_int, c_void, CStr, CString};
use std::ptr::null_mut;

type Database = *mut c_void;
type Statement = *mut c_void;

extern "C" {
    fn sqlite3_libversion() -> *const c_char;
    fn sqlite3_open(path: *const c_char, database: *mut Database) -> c_int;
    fn sqlite3_close(database: Database) -> c_int;
    fn sqlite3_exec(
        database: Database,
        sql: *const c_char,
        callback: *mut c_void,
        argument: *mut c_void,
        error: *mut *mut c_char,
    ) -> c_int;
    fn sqlite3_prepare_v2(
        database: Database,
        sql: *const c_char,
        length: c_int,
        statement: *mut Statement,
        tail: *mut *const c_char,
    ) -> c_int;
    fn sqlite3_bind_int64(statement: Statement, index: c_int, value: i64) -> c_int;
    fn sqlite3_step(statement: Statement) -> c_int;
    fn sqlite3_reset(statement: Statement) -> c_int;
    fn sqlite3_finalize(statement: Statement) -> c_int;
    fn sqlite3_column_int64(statement: Statement, column: c_int) -> i64;
}

const OK: c_int = 0;
const ROW: c_int = 100;
const DONE: c_int = 101;

const SCHEMA: &str = "
    CREATE TABLE history(object INTEGER, stamp INTEGER, value INTEGER,
                         PRIMARY KEY(object, stamp)) WITHOUT ROWID;
    CREATE TABLE objects(object INTEGER PRIMARY KEY);
    WITH RECURSIVE n(i) AS (SELECT 0 UNION ALL SELECT i + 1 FROM n WHERE i < 511)
    INSERT INTO objects SELECT i FROM n;";

const AS_OF: &str = "
    SELECT (SELECT value FROM history WHERE object = o.object AND stamp <= ?1
            ORDER BY stamp DESC LIMIT 1)
    FROM objects o WHERE o.object BETWEEN ?2 AND ?2 + 15 ORDER BY o.object";

/// The version of the library.
pub fn version() -> String {
    unsafe { CStr::from_ptr(sqlite3_libversion()) }.to_string_lossy().into_owned()
}

/// The history of all objects.
pub struct History {
    database: Database,
    begin: Statement,
    insert: Statement,
    end: Statement,
    as_of: Statement,
}

fn execute(database: Database, sql: &str) {
    let sql = CString::new(sql).expect("no zero byte in a statement");
    let code = unsafe { sqlite3_exec(database, sql.as_ptr(), null_mut(), null_mut(), null_mut()) };
    assert_eq!(code, OK, "SQLite refuses {sql:?}");
}

fn prepare(database: Database, sql: &str) -> Statement {
    let sql = CString::new(sql).expect("no zero byte in a statement");
    let mut statement = null_mut();
    let code =
        unsafe { sqlite3_prepare_v2(database, sql.as_ptr(), -1, &mut statement, null_mut()) };
    assert_eq!(code, OK, "SQLite refuses {sql:?}");
    statement
}

/// Runs a statement that gives no rows.
fn run(statement: Statement) {
    unsafe {
        assert_eq!(sqlite3_step(statement), DONE, "SQLite refuses a step");
        sqlite3_reset(statement);
    }
}

impl History {
    /// An empty history at a path (":memory:" for none), under these settings.
    pub fn open(path: &str, settings: &str) -> History {
        let name = CString::new(path).expect("no zero byte in a path");
        let mut database = null_mut();
        assert_eq!(unsafe { sqlite3_open(name.as_ptr(), &mut database) }, OK, "SQLite opens");
        execute(database, settings);
        execute(database, SCHEMA);
        History {
            database,
            begin: prepare(database, "BEGIN"),
            insert: prepare(database, "INSERT INTO history VALUES(?1, ?2, ?3)"),
            end: prepare(database, "COMMIT"),
            as_of: prepare(database, AS_OF),
        }
    }

    /// One transaction with a row for each write.
    pub fn commit(&mut self, t: u64, objects: &[u64], values: &[u64]) {
        run(self.begin);
        for (&object, &value) in objects.iter().zip(values) {
            unsafe {
                sqlite3_bind_int64(self.insert, 1, object as i64);
                sqlite3_bind_int64(self.insert, 2, t as i64);
                sqlite3_bind_int64(self.insert, 3, value as i64);
            }
            run(self.insert);
        }
        run(self.end);
    }

    /// The page's values as of a stamp; 0 where an object had none.
    pub fn read(&mut self, stamp: u64, page: u64, buffer: &mut [u64; 16]) {
        unsafe {
            sqlite3_bind_int64(self.as_of, 1, stamp as i64);
            sqlite3_bind_int64(self.as_of, 2, 16 * page as i64);
            for slot in buffer.iter_mut() {
                assert_eq!(sqlite3_step(self.as_of), ROW, "SQLite gives sixteen rows");
                *slot = sqlite3_column_int64(self.as_of, 0) as u64;
            }
            sqlite3_reset(self.as_of);
        }
    }
}

impl Drop for History {
    fn drop(&mut self) {
        unsafe {
            for statement in [self.begin, self.insert, self.end, self.as_of] {
                sqlite3_finalize(statement);
            }
            sqlite3_close(self.database);
        }
    }
}
