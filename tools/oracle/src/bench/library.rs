//! A build of the exported library that is loaded while the benchmark runs, beside the one that it is linked with.

use std::ffi::{CStr, CString, c_char, c_int, c_void};
use std::fs;
use std::os::unix::ffi::OsStringExt;

mod system {
    use super::{c_char, c_int, c_void};

    /// RTLD_NOW; without RTLD_GLOBAL no other build sees the names of this one.
    pub const NOW: c_int = 2;

    unsafe extern "C" {
        pub fn dlopen(file: *const c_char, flags: c_int) -> *mut c_void;
        pub fn dlsym(library: *mut c_void, name: *const c_char) -> *mut c_void;
        pub fn dlerror() -> *const c_char;
    }
}

/// A loaded build; it stays loaded.
pub struct Library(*mut c_void);

/// Why the system could not load it.
fn told() -> String {
    // SAFETY: the text of the last failure, which lasts until the next call of the loader.
    unsafe {
        let text = system::dlerror();
        match text.is_null() {
            true => "it is not loaded".to_string(),
            false => CStr::from_ptr(text).to_string_lossy().into_owned(),
        }
    }
}

impl Library {
    pub fn open(path: &str) -> Result<Library, String> {
        // A whole path, since a bare name is looked for among the system's libraries.
        let whole = fs::canonicalize(path).map_err(|e| format!("{path}: {e}"))?;
        let file = CString::new(whole.into_os_string().into_vec()).map_err(|e| e.to_string())?;
        // SAFETY: the library is ours and runs nothing when it is loaded.
        let library = unsafe { system::dlopen(file.as_ptr(), system::NOW) };
        match library.is_null() {
            true => Err(format!("{path}: {}", told())),
            false => Ok(Library(library)),
        }
    }

    /// The exported function of this name.
    ///
    /// # Safety
    ///
    /// `F` is the type of a pointer to the function as this build declares it.
    pub unsafe fn function<F: Copy>(&self, name: &CStr) -> Result<F, String> {
        assert_eq!(size_of::<F>(), size_of::<*mut c_void>(), "a pointer");
        // SAFETY: the library is loaded.
        let found = unsafe { system::dlsym(self.0, name.as_ptr()) };
        match found.is_null() {
            true => Err(told()),
            // SAFETY: not null, and of this type by the caller's word.
            false => Ok(unsafe { std::mem::transmute_copy(&found) }),
        }
    }
}
