//! Shared libraries that are looked for while the program runs, so that neither headers nor the libraries are needed to build it.
//! libc's functions are declared by hand.

use std::ffi::{c_char, c_int, c_void, CStr};
use std::mem::transmute_copy;

extern "C" {
    fn dlopen(name: *const c_char, flags: c_int) -> *mut c_void;
    fn dlsym(library: *mut c_void, name: *const c_char) -> *mut c_void;
}

const RTLD_NOW: c_int = 2;

/// A loaded library. It stays loaded until the program ends.
pub struct Shared {
    handle: *mut c_void,
}

impl Shared {
    /// By the name of an installed library or by the path of a file. None where it cannot be loaded.
    pub fn load(name: &CStr) -> Option<Shared> {
        // SAFETY: the name ends in a zero byte.
        let handle = unsafe { dlopen(name.as_ptr(), RTLD_NOW) };
        (!handle.is_null()).then_some(Shared { handle })
    }

    /// The function of this name, None where the library has none.
    ///
    /// # Safety
    ///
    /// `F` is the type of a pointer to that function.
    pub unsafe fn function<F>(&self, name: &CStr) -> Option<F> {
        let found = dlsym(self.handle, name.as_ptr());
        (!found.is_null()).then(|| transmute_copy::<*mut c_void, F>(&found))
    }
}
