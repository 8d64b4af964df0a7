//! The few functions of SQLite's C interface that are needed, as sqlite3.h
//! declares them.

use std::ffi::{c_char, c_int, c_void};

/// A database connection.
#[repr(C)]
pub struct Connection {
    _private: [u8; 0],
}

/// A prepared statement.
#[repr(C)]
pub struct Statement {
    _private: [u8; 0],
}

/// SQLITE_OK.
pub const OK: c_int = 0;
/// SQLITE_INTERRUPT: the progress handler stopped the statement.
pub const INTERRUPT: c_int = 9;
/// SQLITE_ROW: a row is there.
pub const ROW: c_int = 100;
/// SQLITE_DONE: there are no more rows.
pub const DONE: c_int = 101;

#[link(name = "sqlite3")]
extern "C" {
    pub fn sqlite3_open(filename: *const c_char, connection: *mut *mut Connection) -> c_int;
    pub fn sqlite3_close(connection: *mut Connection) -> c_int;
    pub fn sqlite3_errmsg(connection: *mut Connection) -> *const c_char;
    pub fn sqlite3_changes(connection: *mut Connection) -> c_int;
    pub fn sqlite3_progress_handler(
        connection: *mut Connection,
        steps: c_int,
        handler: Option<unsafe extern "C" fn(*mut c_void) -> c_int>,
        argument: *mut c_void,
    );
    pub fn sqlite3_prepare_v2(
        connection: *mut Connection,
        sql: *const c_char,
        length: c_int,
        statement: *mut *mut Statement,
        tail: *mut *const c_char,
    ) -> c_int;
    pub fn sqlite3_bind_int64(statement: *mut Statement, parameter: c_int, value: i64) -> c_int;
    pub fn sqlite3_step(statement: *mut Statement) -> c_int;
    pub fn sqlite3_column_count(statement: *mut Statement) -> c_int;
    pub fn sqlite3_column_int64(statement: *mut Statement, column: c_int) -> i64;
    pub fn sqlite3_reset(statement: *mut Statement) -> c_int;
    pub fn sqlite3_finalize(statement: *mut Statement) -> c_int;
}
