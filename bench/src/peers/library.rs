//! A shared library, opened at run time.

use std::ffi::{c_char, c_int, c_void, CStr};

extern "C" {
    fn dlopen(name: *const c_char, flags: c_int) -> *mut c_void;
    fn dlsym(library: *mut c_void, name: *const c_char) -> *mut c_void;
}

const RTLD_NOW: c_int = 2;

#[derive(Clone, Copy)]
pub struct Library(*mut c_void);

impl Library {
    /// It is never closed: the bench ends soon enough.
    pub fn open(name: &CStr) -> Result<Library, String> {
        // SAFETY: the name ends in a zero byte.
        let library = unsafe { dlopen(name.as_ptr(), RTLD_NOW) };
        match library.is_null() {
            true => Err(format!("{} is not installed", name.to_string_lossy())),
            false => Ok(Library(library)),
        }
    }

    /// The function of that name.
    ///
    /// # Safety
    /// `F` is its type, an `extern "C" fn`.
    pub unsafe fn function<F: Copy>(self, name: &CStr) -> Result<F, String> {
        let found = dlsym(self.0, name.as_ptr());
        match found.is_null() {
            true => Err(format!("{} is missing", name.to_string_lossy())),
            false => Ok(std::mem::transmute_copy(&found)),
        }
    }
}
