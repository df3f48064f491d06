//! `ltd_add` of an earlier build of the first implementation, from its shared library: two builds measured in one run.

use std::ffi::{c_char, c_int, c_void, CString};

type Add = unsafe extern "C" fn(*mut i64, usize, *const u8, usize, *const u32, usize) -> u8;

extern "C" {
    fn dlopen(name: *const c_char, flags: c_int) -> *mut c_void;
    fn dlsym(library: *mut c_void, name: *const c_char) -> *mut c_void;
}

/// Resolve all names at once, and keep them from the program's own.
const NOW: c_int = 2;

pub struct EarlierAdd(Add);

impl EarlierAdd {
    pub fn load(path: &str) -> Result<EarlierAdd, String> {
        let name = CString::new(path).map_err(|error| error.to_string())?;
        let library = unsafe { dlopen(name.as_ptr(), NOW) };
        if library.is_null() {
            return Err(format!("'{path}' is no shared library"));
        }
        let add = unsafe { dlsym(library, c"ltd_add".as_ptr()) };
        if add.is_null() {
            return Err(format!("'{path}' has no ltd_add"));
        }
        Ok(EarlierAdd(unsafe { std::mem::transmute::<*mut c_void, Add>(add) }))
    }

    pub fn add(&self, study: &mut [i64], claim: &[u8], rates: &[u32]) -> u8 {
        unsafe { (self.0)(study.as_mut_ptr(), study.len(), claim.as_ptr(), claim.len(), rates.as_ptr(), rates.len()) }
    }
}
