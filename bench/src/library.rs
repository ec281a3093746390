//! The proved calls out of a shared library, so that several builds of them stand in one
//! process. The static library can be linked once: its exports have the same names in
//! every build.

use std::ffi::{c_char, c_int, c_void, CStr, CString};
use std::mem::transmute;

/// Of dlfcn.h. With `RTLD_LOCAL` no build answers for another's names.
const RTLD_NOW: c_int = 2;
const RTLD_LOCAL: c_int = 0;

extern "C" {
    fn dlopen(path: *const c_char, flags: c_int) -> *mut c_void;
    fn dlsym(library: *mut c_void, name: *const c_char) -> *mut c_void;
    fn dlerror() -> *const c_char;
}

// As `epm::raw` declares them.
type Check =
    unsafe extern "C" fn(*const u32, usize, u32, *const u32, usize, *mut u64, usize) -> u32;
type Certify = unsafe extern "C" fn(
    *const u32,
    usize,
    u32,
    *const u32,
    usize,
    *const i64,
    usize,
    *mut u64,
    usize,
) -> u32;

/// One build of the calls.
pub struct Library {
    check: Check,
    certify: Certify,
}

/// What a call returned and wrote, as `include/epm.h` says.
#[derive(Clone, Copy, Debug, PartialEq, Eq)]
pub struct Answer {
    pub returned: u32,
    pub out: [u64; 2],
}

impl Library {
    /// Opens a shared library that was made of a `libepm_c.a`. It stays open until the
    /// process ends.
    ///
    /// # Safety
    ///
    /// Its `epm_check` and `epm_certify` are those of `include/epm.h`.
    pub unsafe fn open(path: &str) -> Result<Library, String> {
        // A name without a slash would be looked up in the system's folders.
        let path = std::fs::canonicalize(path).map_err(|error| format!("{path}: {error}"))?;
        let name = CString::new(path.into_os_string().into_encoded_bytes())
            .map_err(|error| error.to_string())?;
        let library = dlopen(name.as_ptr(), RTLD_NOW | RTLD_LOCAL);
        if library.is_null() {
            return Err(last_error());
        }
        Ok(Library {
            check: transmute::<*mut c_void, Check>(symbol(library, c"epm_check")?),
            certify: transmute::<*mut c_void, Certify>(symbol(library, c"epm_certify")?),
        })
    }

    pub fn check(&self, data: &[u32], scale: u32, plan: &[u32]) -> Answer {
        let mut out = [0; 2];
        // SAFETY: each pointer and length is that of one list, borrowed for the call;
        // the one that is written overlaps no other.
        let returned = unsafe {
            (self.check)(
                data.as_ptr(),
                data.len(),
                scale,
                plan.as_ptr(),
                plan.len(),
                out.as_mut_ptr(),
                out.len(),
            )
        };
        Answer { returned, out }
    }

    pub fn certify(&self, data: &[u32], scale: u32, plan: &[u32], multipliers: &[i64]) -> Answer {
        let mut out = [0; 2];
        // SAFETY: as in `check`.
        let returned = unsafe {
            (self.certify)(
                data.as_ptr(),
                data.len(),
                scale,
                plan.as_ptr(),
                plan.len(),
                multipliers.as_ptr(),
                multipliers.len(),
                out.as_mut_ptr(),
                out.len(),
            )
        };
        Answer { returned, out }
    }
}

unsafe fn symbol(library: *mut c_void, name: &CStr) -> Result<*mut c_void, String> {
    let found = dlsym(library, name.as_ptr());
    match found.is_null() {
        true => Err(last_error()),
        false => Ok(found),
    }
}

unsafe fn last_error() -> String {
    let message = dlerror();
    match message.is_null() {
        true => "no such name".to_string(),
        false => CStr::from_ptr(message).to_string_lossy().into_owned(),
    }
}
