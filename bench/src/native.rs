//! Compiled Rattle functions in a shared object, as the script `native` makes it, the judge among them.

use std::ffi::{c_char, c_int, c_void, CString};
use std::fs::canonicalize;
use std::mem::transmute;
use std::os::unix::ffi::OsStrExt;

extern "C" {
    fn dlopen(path: *const c_char, flag: c_int) -> *mut c_void;
    fn dlsym(object: *mut c_void, name: *const c_char) -> *mut c_void;
}

/// All that the object needs is looked up at once.
const RTLD_NOW: c_int = 2;

/// An object that stays loaded.
pub struct Object {
    path: String,
    handle: *mut c_void,
}

impl Object {
    pub fn load(path: &str) -> Result<Object, String> {
        // A path without a slash would be looked for among the system's libraries.
        let whole = canonicalize(path).map_err(|why| format!("{path}: {why}"))?;
        let whole = CString::new(whole.as_os_str().as_bytes()).map_err(|why| format!("{path}: {why}"))?;
        // SAFETY: the string ends with 0, and the object's own start does nothing but define functions.
        let handle = unsafe { dlopen(whole.as_ptr(), RTLD_NOW) };
        if handle.is_null() {
            return Err(format!("{path}: not a shared object that can be loaded"));
        }
        Ok(Object { path: path.to_string(), handle })
    }

    /// The address of a function by its name.
    pub fn function(&self, name: &str) -> Result<*mut c_void, String> {
        let symbol = CString::new(name).map_err(|why| format!("{name}: {why}"))?;
        // SAFETY: the string ends with 0, and the object is loaded.
        let address = unsafe { dlsym(self.handle, symbol.as_ptr()) };
        if address.is_null() {
            return Err(format!("{}: no {name} in it", self.path));
        }
        Ok(address)
    }
}

/// As the crate `judge_c` exports it: a slice is passed as its start and its length, and the answer's length is returned.
type WriteAnswer = unsafe extern "C" fn(table: *const u8, table_len: usize, out: *mut u8, out_len: usize) -> usize;

pub struct Native {
    write_answer: WriteAnswer,
}

impl Native {
    pub fn of(object: &Object) -> Result<Native, String> {
        let address = object.function("tweedstile_write_answer")?;
        // SAFETY: the function of this name has this type.
        Ok(Native { write_answer: unsafe { transmute::<*mut c_void, WriteAnswer>(address) } })
    }

    /// The answer's text at the front of `out`, which has to be longer than 4,096 bytes.
    pub fn write_answer(&self, table: &[u8], out: &mut [u8]) {
        assert!(out.len() > 4096, "a text may ask for that much room");
        // SAFETY: each slice is lent by its own start and length until the call ends, and `out` alone is written.
        unsafe { (self.write_answer)(table.as_ptr(), table.len(), out.as_mut_ptr(), out.len()) };
    }
}
