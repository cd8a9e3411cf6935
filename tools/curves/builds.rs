//! The curves of another build, out of a shared library made of it.

use std::ffi::{c_char, c_int, c_void, CStr, CString};

extern "C" {
    fn dlopen(file: *const c_char, flag: c_int) -> *mut c_void;
    fn dlsym(library: *mut c_void, name: *const c_char) -> *mut c_void;
    fn dlerror() -> *const c_char;
}

const RTLD_NOW: c_int = 2;

pub type Port = unsafe extern "C" fn(f32) -> f32;

pub struct Build(*mut c_void);

impl Build {
    pub fn open(path: &str) -> Result<Build, String> {
        let file = CString::new(path).map_err(|e| e.to_string())?;
        found(unsafe { dlopen(file.as_ptr(), RTLD_NOW) }).map(Build)
    }

    pub fn curve(&self, name: &str) -> Result<Port, String> {
        let symbol = CString::new(format!("rytm_{name}")).map_err(|e| e.to_string())?;
        found(unsafe { dlsym(self.0, symbol.as_ptr()) }).map(|f| unsafe { std::mem::transmute::<*mut c_void, Port>(f) })
    }
}

fn found(p: *mut c_void) -> Result<*mut c_void, String> {
    if p.is_null() {
        return Err(unsafe { CStr::from_ptr(dlerror()) }.to_string_lossy().into_owned());
    }
    Ok(p)
}
