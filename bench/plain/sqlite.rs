//! The few calls of SQLite's own library that `filed` needs.

use std::ffi::{CString, c_char, c_int, c_void};
use std::ptr::{null, null_mut};

pub type Handle = *mut c_void;
#[link(name = "sqlite3")]
unsafe extern "C" {
    fn sqlite3_open(name: *const c_char, db: *mut Handle) -> c_int;
    fn sqlite3_close(db: Handle) -> c_int;
    fn sqlite3_exec(db: Handle, sql: *const c_char, row: *const c_void, given: *mut c_void, error: *mut Handle) -> c_int;
    fn sqlite3_prepare_v2(db: Handle, sql: *const c_char, len: c_int, made: *mut Handle, rest: *mut Handle) -> c_int;
    fn sqlite3_bind_int64(made: Handle, at: c_int, value: i64) -> c_int;
    fn sqlite3_bind_blob(made: Handle, at: c_int, value: *const u8, len: c_int, release: isize) -> c_int;
    fn sqlite3_bind_text(made: Handle, at: c_int, value: *const u8, len: c_int, release: isize) -> c_int;
    fn sqlite3_step(made: Handle) -> c_int;
    fn sqlite3_reset(made: Handle) -> c_int;
    fn sqlite3_finalize(made: Handle) -> c_int;
    fn sqlite3_column_int64(made: Handle, at: c_int) -> i64;
    fn sqlite3_column_blob(made: Handle, at: c_int) -> *const u8;
    fn sqlite3_column_bytes(made: Handle, at: c_int) -> c_int;
}

const OK: c_int = 0;
const ROW: c_int = 100;
const DONE: c_int = 101;

/// SQLite copies what is bound.
const COPIED: isize = -1;

pub enum Value<'a> {
    Int(i64),
    Text(&'a str),
    Blob(&'a [u8]),
}

/// A database of one file.
pub struct Database(Handle);

impl Database {
    pub fn open(path: &str) -> Database {
        let path = CString::new(path).expect("a path has no zero byte");
        let mut db = null_mut();
        assert_eq!(unsafe { sqlite3_open(path.as_ptr(), &mut db) }, OK, "open");
        Database(db)
    }

    pub fn run(&self, sql: &str) {
        let text = CString::new(sql).expect("a statement has no zero byte");
        let status = unsafe { sqlite3_exec(self.0, text.as_ptr(), null(), null_mut(), null_mut()) };
        assert_eq!(status, OK, "{sql}");
    }

    pub fn prepare(&self, sql: &str) -> Statement {
        let mut made = null_mut();
        let status =
            unsafe { sqlite3_prepare_v2(self.0, sql.as_ptr().cast(), sql.len() as c_int, &mut made, null_mut()) };
        assert_eq!(status, OK, "{sql}");
        Statement(made)
    }

    pub fn close(self) {
        assert_eq!(unsafe { sqlite3_close(self.0) }, OK, "close");
    }
}

/// A statement that is run many times.
pub struct Statement(Handle);

impl Statement {
    fn bind(&self, values: &[Value]) {
        unsafe { sqlite3_reset(self.0) };
        for (value, at) in values.iter().zip(1..) {
            let status = unsafe {
                match value {
                    Value::Int(number) => sqlite3_bind_int64(self.0, at, *number),
                    Value::Text(text) => sqlite3_bind_text(self.0, at, text.as_ptr(), text.len() as c_int, COPIED),
                    Value::Blob(bytes) => sqlite3_bind_blob(self.0, at, bytes.as_ptr(), bytes.len() as c_int, COPIED),
                }
            };
            assert_eq!(status, OK, "bind");
        }
    }

    /// Runs it to its end.
    pub fn execute(&self, values: &[Value]) {
        self.bind(values);
        assert_eq!(unsafe { sqlite3_step(self.0) }, DONE, "step");
        unsafe { sqlite3_reset(self.0) };
    }

    /// Sees each row as it comes, and keeps none.
    pub fn each(&self, values: &[Value], mut see: impl FnMut(&Statement)) {
        self.bind(values);
        loop {
            match unsafe { sqlite3_step(self.0) } {
                ROW => see(self),
                status => {
                    assert_eq!(status, DONE, "step");
                    unsafe { sqlite3_reset(self.0) };
                    return;
                }
            }
        }
    }

    /// What is made of each row.
    pub fn query<T>(&self, values: &[Value], read: impl Fn(&Statement) -> T) -> Vec<T> {
        let mut rows = Vec::new();
        self.each(values, |row| rows.push(read(row)));
        rows
    }

    pub fn int(&self, at: c_int) -> i64 {
        unsafe { sqlite3_column_int64(self.0, at) }
    }

    pub fn bytes(&self, at: c_int) -> Vec<u8> {
        self.lent(at).to_vec()
    }

    /// The bytes of a column, which are there until the next row.
    pub fn lent(&self, at: c_int) -> &[u8] {
        unsafe {
            match sqlite3_column_bytes(self.0, at) as usize {
                0 => &[],
                len => std::slice::from_raw_parts(sqlite3_column_blob(self.0, at), len),
            }
        }
    }
}

impl Drop for Statement {
    fn drop(&mut self) {
        unsafe { sqlite3_finalize(self.0) };
    }
}
