//! SQLite on the same data and the same question, where its library is installed. It is loaded while the benchmark runs,
//! so that nothing needs it to build.

use std::ffi::{CString, c_char, c_int, c_void};
use std::ptr;

type Open = unsafe extern "C" fn(*const c_char, *mut *mut c_void) -> c_int;
type Exec = unsafe extern "C" fn(*mut c_void, *const c_char, *mut c_void, *mut c_void, *mut c_void) -> c_int;
type Prepare = unsafe extern "C" fn(*mut c_void, *const c_char, c_int, *mut *mut c_void, *mut c_void) -> c_int;
type Step = unsafe extern "C" fn(*mut c_void) -> c_int;
type ColumnInt = unsafe extern "C" fn(*mut c_void, c_int) -> c_int;

unsafe extern "C" {
    fn dlopen(name: *const c_char, flags: c_int) -> *mut c_void;
    fn dlsym(library: *mut c_void, name: *const c_char) -> *mut c_void;
}

const RTLD_NOW: c_int = 2;
const SQLITE_ROW: c_int = 100;

/// A database in memory.
pub struct Database {
    library: *mut c_void,
    handle: *mut c_void,
}

/// A prepared statement that gives one number.
pub struct Statement {
    handle: *mut c_void,
    step: Step,
    column_int: ColumnInt,
    reset: Step,
}

impl Database {
    /// None where SQLite is not installed.
    pub fn open() -> Option<Database> {
        // SAFETY: the names end with a zero; the functions have the types of SQLite's header.
        unsafe {
            let library = dlopen(c"libsqlite3.so.0".as_ptr(), RTLD_NOW);
            if library.is_null() {
                return None;
            }
            let mut handle = ptr::null_mut();
            let open: Open = function(library, c"sqlite3_open".as_ptr());
            assert_eq!(open(c":memory:".as_ptr(), &raw mut handle), 0, "SQLite opens a database in memory");
            Some(Database { library, handle })
        }
    }

    /// Runs statements that give nothing.
    pub fn execute(&self, sql: &str) {
        let sql = CString::new(sql).expect("SQL without a zero byte");
        // SAFETY: as in `open`; the handle is an open database's.
        unsafe {
            let exec: Exec = function(self.library, c"sqlite3_exec".as_ptr());
            let status = exec(self.handle, sql.as_ptr(), ptr::null_mut(), ptr::null_mut(), ptr::null_mut());
            assert_eq!(status, 0, "SQLite refuses {sql:?}");
        }
    }

    pub fn prepare(&self, sql: &str) -> Statement {
        let sql = CString::new(sql).expect("SQL without a zero byte");
        let mut handle = ptr::null_mut();
        // SAFETY: as in `open`; the handle is an open database's.
        unsafe {
            let prepare: Prepare = function(self.library, c"sqlite3_prepare_v2".as_ptr());
            let status = prepare(self.handle, sql.as_ptr(), -1, &raw mut handle, ptr::null_mut());
            assert_eq!(status, 0, "SQLite refuses {sql:?}");
            Statement {
                handle,
                step: function(self.library, c"sqlite3_step".as_ptr()),
                column_int: function(self.library, c"sqlite3_column_int".as_ptr()),
                reset: function(self.library, c"sqlite3_reset".as_ptr()),
            }
        }
    }
}

impl Statement {
    /// The number that the statement gives.
    pub fn number(&self) -> u32 {
        // SAFETY: a prepared statement of a database that is never closed; the row is read before the reset.
        unsafe {
            assert_eq!((self.step)(self.handle), SQLITE_ROW, "the statement gives a row");
            let number = (self.column_int)(self.handle, 0);
            (self.reset)(self.handle);
            number as u32
        }
    }
}

/// A function of the library, which must be there, as the type that the caller names.
///
/// # Safety
/// `F` is the function's type.
unsafe fn function<F: Copy>(library: *mut c_void, name: *const c_char) -> F {
    // SAFETY: a loaded library and a name that ends with a zero; a function pointer is as large as a pointer.
    unsafe {
        let address = dlsym(library, name);
        assert!(!address.is_null(), "SQLite's library lacks a function");
        assert_eq!(size_of::<F>(), size_of::<*mut c_void>());
        std::mem::transmute_copy(&address)
    }
}
