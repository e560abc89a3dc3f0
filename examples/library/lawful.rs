//! Whether the history on standard input is lawful: rustc -L checker -l static=lynx_service lawful.rs, of `lynx library checker`.
use std::{ffi::c_void, io::BufRead, process, ptr};

unsafe extern "C" {
    fn lynx_service_new(out: *mut *mut c_void) -> i32;
    fn lynx_service_line(service: *mut c_void, line: *const u8, length: usize) -> i32;
    fn lynx_service_free(service: *mut c_void);
}

fn main() {
    let mut service = ptr::null_mut();
    // SAFETY: the pointer is to room for one. The service is used by this thread alone, not where none was made, and not after it was freed.
    let mut status = unsafe { lynx_service_new(&mut service) };
    for line in std::io::stdin().lock().split(b'\n').map_while(Result::ok) {
        if status == 0 {
            status = unsafe { lynx_service_line(service, line.as_ptr(), line.len()) };
        }
    }
    unsafe { lynx_service_free(service) };
    process::exit(status);
}
