//! A safe face for the part of SQLite that is used: one connection in memory,
//! statements with whole numbers in and out, and a time limit.
//!
//! A failure other than running out of time is a fault of this package's SQL,
//! so it panics with SQLite's message.

#![allow(unsafe_code)]

use std::cell::Cell;
use std::ffi::{c_int, c_void, CStr, CString};
use std::ptr;
use std::rc::Rc;
use std::time::Duration;

use super::ffi;
use crate::clock::thread_time;
use crate::measure::TIME_LIMIT;

/// How many steps of SQLite's machine go between two looks at the time.
const STEPS: c_int = 10_000;

/// Given up after [`TIME_LIMIT`].
#[derive(Clone, Copy, Debug, PartialEq, Eq)]
pub struct OutOfTime;

/// A database in memory.
#[derive(Clone)]
pub struct Database(Rc<Connection>);

/// The connection, closed when the database and all its statements are gone.
struct Connection {
    handle: *mut ffi::Connection,
    /// The processor time at which the time limit began; SQLite has its
    /// address.
    began: Box<Cell<Duration>>,
}

/// A prepared statement.
pub struct Statement {
    handle: *mut ffi::Statement,
    connection: Rc<Connection>,
}

impl Database {
    /// Opens a new database.
    pub fn open() -> Database {
        let began = Box::new(Cell::new(thread_time()));
        let argument = ptr::from_ref(began.as_ref()).cast_mut().cast();
        let mut handle = ptr::null_mut();
        // SAFETY: the name is a C string, and `handle` is a place to write to.
        let code = unsafe { ffi::sqlite3_open(c":memory:".as_ptr(), &mut handle) };
        let connection = Connection { handle, began };
        connection.expect(code, ffi::OK);
        // SAFETY: the handle is open. The argument points into a box that lives
        // until the connection is closed, and is only read by the handler.
        unsafe { ffi::sqlite3_progress_handler(handle, STEPS, Some(is_out_of_time), argument) };
        Database(Rc::new(connection))
    }

    /// Begins the time limit anew.
    pub fn begin(&self) {
        self.0.began.set(thread_time());
    }

    /// Prepares a statement.
    pub fn prepare(&self, sql: &str) -> Statement {
        let text = CString::new(sql).expect("SQL without zero bytes");
        let mut handle = ptr::null_mut();
        // SAFETY: the connection is open, the text is a C string, `handle` is a
        // place to write to, and no tail is asked for.
        let code = unsafe {
            let connection = self.0.handle;
            ffi::sqlite3_prepare_v2(connection, text.as_ptr(), -1, &mut handle, ptr::null_mut())
        };
        self.0.expect(code, ffi::OK);
        Statement {
            handle,
            connection: Rc::clone(&self.0),
        }
    }

    /// Runs a statement that gives no rows.
    pub fn execute(&self, sql: &str) {
        let done = self.prepare(sql).run(&[], |_| true);
        assert_eq!(done, Ok(()), "{sql}");
    }

    /// The rows that the last INSERT or DELETE changed.
    pub fn changes(&self) -> usize {
        // SAFETY: the connection is open.
        let changes = unsafe { ffi::sqlite3_changes(self.0.handle) };
        usize::try_from(changes).expect("a count")
    }
}

impl Statement {
    /// Runs the statement with these parameters. `each` gets the rows one by
    /// one and tells whether to go on.
    pub fn run(
        &mut self,
        parameters: &[i64],
        mut each: impl FnMut(&[i64]) -> bool,
    ) -> Result<(), OutOfTime> {
        for (number, &parameter) in (1..).zip(parameters) {
            // SAFETY: the statement is prepared and isn't running.
            let code = unsafe { ffi::sqlite3_bind_int64(self.handle, number, parameter) };
            self.connection.expect(code, ffi::OK);
        }
        let done = self.step_through(&mut each);
        // SAFETY: the statement is prepared. The code is that of the last step,
        // which has been looked at.
        unsafe { ffi::sqlite3_reset(self.handle) };
        done
    }

    fn step_through(&mut self, each: &mut impl FnMut(&[i64]) -> bool) -> Result<(), OutOfTime> {
        // SAFETY: the statement is prepared.
        let columns = unsafe { ffi::sqlite3_column_count(self.handle) };
        let mut row = Vec::new();
        loop {
            // SAFETY: the statement is prepared and its parameters are bound.
            match unsafe { ffi::sqlite3_step(self.handle) } {
                ffi::ROW => {
                    row.clear();
                    // SAFETY: a row is there, and it has these columns.
                    let cell = |column| unsafe { ffi::sqlite3_column_int64(self.handle, column) };
                    row.extend((0..columns).map(cell));
                    if !each(&row) {
                        return Ok(());
                    }
                }
                ffi::INTERRUPT => return Err(OutOfTime),
                code => {
                    self.connection.expect(code, ffi::DONE);
                    return Ok(());
                }
            }
        }
    }
}

impl Connection {
    fn expect(&self, code: c_int, expected: c_int) {
        if code != expected {
            // SAFETY: SQLite gives a C string that lives until the next call.
            let message = unsafe { CStr::from_ptr(ffi::sqlite3_errmsg(self.handle)) };
            panic!("SQLite: {}", message.to_string_lossy());
        }
    }
}

impl Drop for Statement {
    fn drop(&mut self) {
        // SAFETY: the statement is prepared and isn't used again.
        unsafe { ffi::sqlite3_finalize(self.handle) };
    }
}

impl Drop for Connection {
    fn drop(&mut self) {
        // SAFETY: the connection is open and all its statements are gone, since
        // each of them keeps it alive.
        unsafe { ffi::sqlite3_close(self.handle) };
    }
}

/// Tells SQLite to stop a statement that has passed the time limit.
unsafe extern "C" fn is_out_of_time(argument: *mut c_void) -> c_int {
    // SAFETY: the argument is the one given in `Database::open`.
    let began = unsafe { &*argument.cast::<Cell<Duration>>() };
    c_int::from(thread_time() - began.get() > TIME_LIMIT)
}
