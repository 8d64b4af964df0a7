//! libpq, PostgreSQL's own library, which knows services, password files and Kerberos as hospitals use them. All unsafe code of the package stands here.
//!
//! Calls block, and hold nothing that outlives the process: whoever interrupts it closes the socket, and the server ends the transaction.
#![allow(unsafe_code)]

use std::ffi::{c_char, c_int, c_void, CStr, CString};
use std::ptr::{null, NonNull};

use pq_sys::{ConnStatusType, ExecStatusType, PGconn, PGresult};

/// The field of a result with the error's code (PG_DIAG_SQLSTATE).
const CODE: c_int = b'C' as c_int;

/// Results are asked for as text.
const TEXT: c_int = 0;

/// An open connection.
pub(crate) struct Connection(NonNull<PGconn>);

/// What a statement gives.
pub(crate) struct Table {
    /// The columns' types, by their numbers.
    pub(crate) types: Vec<u32>,
    /// The rows' values as text; none for NULL.
    pub(crate) rows: Vec<Vec<Option<Vec<u8>>>>,
}

/// Why there is no result.
#[derive(Clone, Debug)]
pub(crate) struct Refusal {
    /// In PostgreSQL's words.
    pub(crate) message: String,
    /// Its code of five characters, if the server gave one.
    pub(crate) code: String,
}

impl Refusal {
    fn own(message: &str) -> Refusal {
        Refusal {
            message: message.into(),
            code: String::new(),
        }
    }
}

/// What the server says beside results isn't printed.
unsafe extern "C" fn silent(_: *mut c_void, _: *const c_char) {}

/// A text of libpq's, on one line.
///
/// # Safety
/// It is null, or ends with a zero byte.
unsafe fn text(text: *const c_char) -> String {
    if text.is_null() {
        return String::new();
    }
    // SAFETY: by the caller's word.
    let text = unsafe { CStr::from_ptr(text) };
    let text = text.to_string_lossy();
    text.split_whitespace().collect::<Vec<_>>().join(" ")
}

fn terminated(text: &str) -> Result<CString, Refusal> {
    CString::new(text).map_err(|_| Refusal::own("a zero byte stands in a statement or value"))
}

impl Connection {
    /// Connects as a conninfo says. Texts come in UTF-8.
    pub(crate) fn open(conninfo: &str) -> Result<Connection, Refusal> {
        let conninfo = terminated(conninfo)?;
        let keywords = [
            c"dbname".as_ptr(),
            c"fallback_application_name".as_ptr(),
            c"client_encoding".as_ptr(),
            null(),
        ];
        let values = [
            conninfo.as_ptr(),
            c"wurzsige".as_ptr(),
            c"UTF8".as_ptr(),
            null(),
        ];
        // SAFETY: two lists of texts that end with null; `dbname` is read as a conninfo.
        let raw = unsafe { pq_sys::PQconnectdbParams(keywords.as_ptr(), values.as_ptr(), 1) };
        let connection = Connection(NonNull::new(raw).ok_or(Refusal::own("out of memory"))?);
        if !connection.is_alive() {
            return Err(connection.refusal());
        }
        // SAFETY: the connection is open; the function takes whatever it is given.
        unsafe { pq_sys::PQsetNoticeProcessor(raw, Some(silent), std::ptr::null_mut()) };
        Ok(connection)
    }

    /// Whether the server was there at the last call.
    pub(crate) fn is_alive(&self) -> bool {
        // SAFETY: the connection is open until it is dropped.
        unsafe { pq_sys::PQstatus(self.0.as_ptr()) == ConnStatusType::CONNECTION_OK }
    }

    fn refusal(&self) -> Refusal {
        // SAFETY: the connection is open until it is dropped, and its message ends with a zero byte.
        let message = unsafe { text(pq_sys::PQerrorMessage(self.0.as_ptr())) };
        Refusal::own(&message)
    }

    /// Runs statements without parameters; the last one's result.
    pub(crate) fn run(&mut self, sql: &str) -> Result<Table, Refusal> {
        let sql = terminated(sql)?;
        // SAFETY: the connection is open, the text ends with a zero byte.
        let result = unsafe { pq_sys::PQexec(self.0.as_ptr(), sql.as_ptr()) };
        self.table(result)
    }

    /// Prepares a statement under a name.
    pub(crate) fn prepare(&mut self, name: &str, sql: &str) -> Result<(), Refusal> {
        let (name, sql) = (terminated(name)?, terminated(sql)?);
        // SAFETY: the connection is open, the texts end with zero bytes, and no types are given.
        let result =
            unsafe { pq_sys::PQprepare(self.0.as_ptr(), name.as_ptr(), sql.as_ptr(), 0, null()) };
        self.table(result).map(|_| ())
    }

    /// Runs a prepared statement.
    pub(crate) fn execute(&mut self, name: &str, values: &[String]) -> Result<Table, Refusal> {
        let name = terminated(name)?;
        let values = values.iter().map(|value| terminated(value));
        let values: Vec<CString> = values.collect::<Result<_, _>>()?;
        let pointers: Vec<*const c_char> = values.iter().map(|value| value.as_ptr()).collect();
        let count = c_int::try_from(pointers.len()).map_err(|_| Refusal::own("too many values"))?;
        // SAFETY: the connection is open; there are `count` texts, each ending with a zero byte, so that no lengths or formats are needed.
        let result = unsafe {
            pq_sys::PQexecPrepared(
                self.0.as_ptr(),
                name.as_ptr(),
                count,
                pointers.as_ptr(),
                null(),
                null(),
                TEXT,
            )
        };
        self.table(result)
    }

    /// Takes a result over, which is freed.
    fn table(&self, result: *mut PGresult) -> Result<Table, Refusal> {
        let Some(result) = NonNull::new(result).map(Held) else {
            return Err(self.refusal());
        };
        match result.status() {
            ExecStatusType::PGRES_TUPLES_OK => Ok(result.table()),
            ExecStatusType::PGRES_COMMAND_OK | ExecStatusType::PGRES_EMPTY_QUERY => Ok(Table {
                types: Vec::new(),
                rows: Vec::new(),
            }),
            _ => Err(result.refusal()),
        }
    }
}

impl Drop for Connection {
    fn drop(&mut self) {
        // SAFETY: nothing uses the connection from here on.
        unsafe { pq_sys::PQfinish(self.0.as_ptr()) }
    }
}

/// A result that is freed when it goes.
struct Held(NonNull<PGresult>);

impl Held {
    fn status(&self) -> ExecStatusType {
        // SAFETY: the result lives. Its status is one of those that the bindings know, since pipelines aren't used.
        unsafe { pq_sys::PQresultStatus(self.0.as_ptr()) }
    }

    fn refusal(&self) -> Refusal {
        let raw = self.0.as_ptr();
        // SAFETY: the result lives, and its texts are null or end with a zero byte.
        let (message, code) = unsafe {
            (
                text(pq_sys::PQresultErrorMessage(raw)),
                text(pq_sys::PQresultErrorField(raw, CODE)),
            )
        };
        Refusal { message, code }
    }

    fn table(&self) -> Table {
        let raw = self.0.as_ptr();
        // SAFETY: the result lives.
        let (height, width) = unsafe { (pq_sys::PQntuples(raw), pq_sys::PQnfields(raw)) };
        // SAFETY: these are the numbers of its columns.
        let types = (0..width).map(|column| unsafe { pq_sys::PQftype(raw, column) });
        let row = |row| (0..width).map(|column| self.value(row, column)).collect();
        Table {
            types: types.collect(),
            rows: (0..height).map(row).collect(),
        }
    }

    /// The value of a row and a column that the result has.
    fn value(&self, row: c_int, column: c_int) -> Option<Vec<u8>> {
        let raw = self.0.as_ptr();
        // SAFETY: the result lives, and has the row and the column.
        let (is_null, length, start) = unsafe {
            (
                pq_sys::PQgetisnull(raw, row, column),
                pq_sys::PQgetlength(raw, row, column),
                pq_sys::PQgetvalue(raw, row, column),
            )
        };
        if is_null != 0 {
            return None;
        }
        let length = usize::try_from(length).ok()?;
        // SAFETY: a value that isn't NULL has so many bytes from there on, for as long as the result lives.
        let bytes = unsafe { std::slice::from_raw_parts(start.cast::<u8>(), length) };
        Some(bytes.to_vec())
    }
}

impl Drop for Held {
    fn drop(&mut self) {
        // SAFETY: nothing uses the result from here on.
        unsafe { pq_sys::PQclear(self.0.as_ptr()) }
    }
}
