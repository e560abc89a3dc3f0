//! Checks a history while it comes, and says who holds these ends then: SYSTEM | watch [END ..]
//!
//!     bin/lynx library checker
//!     rustc -L checker -l static=lynx_service examples/library/watch.rs
//!     python3 examples/own/post.py | ./watch box.a mail.b
//!
//! prints
//!
//!     line 10: no: this call is refused: NoEnd, box.a is in message 1 of mail.a
//!     box.a is in message 1 of mail.a
//!     mail.b is owned by bob

use std::ffi::c_int;
use std::io::{self, BufRead};
use std::process::ExitCode;

/// The functions of `lynx_service.h`, and its types, declared by hand.
mod declared {
    use super::c_int;

    #[repr(C)]
    pub struct Service {
        _private: [u8; 0],
    }

    #[repr(C)]
    pub struct Holder {
        pub number: u32,
        pub length: usize,
        pub name: [u8; 40],
    }

    unsafe extern "C" {
        pub fn lynx_service_new(out: *mut *mut Service) -> c_int;
        pub fn lynx_service_line(service: *mut Service, line: *const u8, length: usize) -> c_int;
        pub fn lynx_service_why(service: *const Service, room: *mut u8, size: usize) -> usize;
        pub fn lynx_service_place(service: *const Service, end: *const u8, length: usize, holder: *mut Holder) -> c_int;
        pub fn lynx_service_free(service: *mut Service);
    }
}

/// Where an end is.
pub enum Holder {
    Owned(String),
    Sent(String, u32),
    Destroyed,
    NoEnd,
    NoMemory,
}

/// The link service, as far as its lines were told. It is of one thread, as the header wants it, since a pointer is.
pub struct Service(*mut declared::Service);

impl Service {
    /// Before the first line. None for want of memory.
    pub fn new() -> Option<Service> {
        let mut made = std::ptr::null_mut();
        // SAFETY: the pointer is to room for one, which this function owns.
        (unsafe { declared::lynx_service_new(&mut made) } == 0).then_some(Service(made))
    }

    /// Tells the next line, without its line feed. Where it can't stand there, or one before it could not, the words say why.
    pub fn line(&mut self, line: &[u8]) -> Result<(), String> {
        // SAFETY: the service was made and is not freed; the pointer and the length are of one slice, and are not null.
        match unsafe { declared::lynx_service_line(self.0, line.as_ptr(), line.len()) } {
            0 => Ok(()),
            _ => Err(self.why()),
        }
    }

    fn why(&self) -> String {
        // SAFETY: as above. With no room nothing is written, and then at most as many bytes as there is room for.
        unsafe {
            let mut room = vec![0; declared::lynx_service_why(self.0, std::ptr::null_mut(), 0)];
            declared::lynx_service_why(self.0, room.as_mut_ptr(), room.len());
            String::from_utf8_lossy(&room).into_owned()
        }
    }

    /// Who holds an end, by the lines so far.
    pub fn holder(&self, end: &str) -> Holder {
        let mut found = declared::Holder { number: 0, length: 0, name: [0; 40] };
        // SAFETY: as of a line, and the holder is of this function.
        let place = unsafe { declared::lynx_service_place(self.0, end.as_ptr(), end.len(), &mut found) };
        let name = String::from_utf8_lossy(&found.name[..found.length]).into_owned();
        match place {
            10 => Holder::Owned(name),
            11 => Holder::Sent(name, found.number),
            12 => Holder::Destroyed,
            13 => Holder::NoEnd,
            _ => Holder::NoMemory,
        }
    }
}

impl Drop for Service {
    fn drop(&mut self) {
        // SAFETY: it was made, and nobody uses it after this.
        unsafe { declared::lynx_service_free(self.0) }
    }
}

fn print_holder(service: &Service, end: &str) {
    match service.holder(end) {
        Holder::Owned(name) => println!("{end} is owned by {name}"),
        Holder::Sent(by, number) => println!("{end} is in message {number} of {by}"),
        Holder::Destroyed => println!("{end} is destroyed"),
        Holder::NoEnd => println!("there is no end {end}"),
        Holder::NoMemory => println!("no memory"),
    }
}

fn main() -> io::Result<ExitCode> {
    let mut service = Service::new().ok_or(io::ErrorKind::OutOfMemory)?;
    let mut lines = io::stdin().lock().split(b'\n');
    let mut told = Ok(());
    for (number, line) in (1..).zip(&mut lines) {
        told = service.line(&line?).map_err(|why| format!("line {number}: {why}"));
        if told.is_err() {
            break;
        }
    }
    println!("{}", told.as_ref().err().map_or("yes", String::as_str));
    for end in std::env::args().skip(1) {
        print_holder(&service, &end);
    }
    // so that the system goes on
    lines.for_each(drop);
    Ok(ExitCode::from(if told.is_ok() { 0 } else { 4 }))
}
