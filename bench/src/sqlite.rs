//! SQLite through its C API: one prepared statement a row, in a database in memory.

use std::ffi::{c_char, c_int, c_void, CStr, CString};
use std::ptr::{null, null_mut};

extern "C" {
    fn sqlite3_libversion() -> *const c_char;
    fn sqlite3_open(name: *const c_char, database: *mut *mut c_void) -> c_int;
    fn sqlite3_prepare_v2(
        database: *mut c_void,
        sql: *const c_char,
        length: c_int,
        statement: *mut *mut c_void,
        tail: *mut *const c_char,
    ) -> c_int;
    fn sqlite3_bind_text(
        statement: *mut c_void,
        at: c_int,
        text: *const u8,
        length: c_int,
        destructor: *const c_void,
    ) -> c_int;
    fn sqlite3_bind_double(statement: *mut c_void, at: c_int, number: f64) -> c_int;
    fn sqlite3_bind_int64(statement: *mut c_void, at: c_int, number: i64) -> c_int;
    fn sqlite3_step(statement: *mut c_void) -> c_int;
    fn sqlite3_reset(statement: *mut c_void) -> c_int;
    fn sqlite3_column_type(statement: *mut c_void, at: c_int) -> c_int;
    fn sqlite3_column_text(statement: *mut c_void, at: c_int) -> *const u8;
    fn sqlite3_column_double(statement: *mut c_void, at: c_int) -> f64;
}

const OK: c_int = 0;
const ROW: c_int = 100;
const TEXT: c_int = 3;
const NULL: c_int = 5;

/// What is bound to a statement's parameters.
#[derive(Clone, Copy)]
pub enum Bound<'a> {
    Text(&'a str),
    Real(f64),
    Integer(i64),
}

pub fn version() -> String {
    // SAFETY: a constant text of the library.
    unsafe { CStr::from_ptr(sqlite3_libversion()) }.to_string_lossy().into_owned()
}

/// One statement. It stays open as long as the program runs.
pub struct Statement(*mut c_void);

impl Statement {
    /// None where this SQLite does not know a function of it.
    pub fn new(sql: &str) -> Option<Statement> {
        let sql = CString::new(sql).unwrap();
        let (mut database, mut statement) = (null_mut(), null_mut());
        // SAFETY: both texts end with a zero byte; the places for the handles are ours.
        unsafe {
            assert_eq!(sqlite3_open(c":memory:".as_ptr(), &mut database), OK);
            let prepared =
                sqlite3_prepare_v2(database, sql.as_ptr(), -1, &mut statement, null_mut());
            (prepared == OK).then_some(Statement(statement))
        }
    }

    /// Binds, runs, reads the answer. False for null.
    pub fn call(&self, bound: &[Bound]) -> bool {
        // SAFETY: the statement is open; a bound text lives until the next binding is made, for which the statement was reset.
        unsafe {
            for (at, bound) in (1..).zip(bound) {
                match *bound {
                    Bound::Text(text) => {
                        sqlite3_bind_text(self.0, at, text.as_ptr(), text.len() as c_int, null())
                    }
                    Bound::Real(number) => sqlite3_bind_double(self.0, at, number),
                    Bound::Integer(number) => sqlite3_bind_int64(self.0, at, number),
                };
            }
            assert_eq!(sqlite3_step(self.0), ROW);
            let kind = sqlite3_column_type(self.0, 0);
            if kind == TEXT {
                std::hint::black_box(*sqlite3_column_text(self.0, 0));
            } else {
                std::hint::black_box(sqlite3_column_double(self.0, 0));
            }
            sqlite3_reset(self.0);
            kind != NULL
        }
    }
}
