//! The library's functions out of an archive, called in this very process: the archive is made a shared
//! object by gcc and opened. It must be made for this machine.
//!
//! What makes the unsafe code sound is what `include/lcs.h` promises.

use crate::answers::Answer;
use std::ffi::{c_char, c_int, c_void, CStr, CString};
use std::io;
use std::path::Path;
use std::process::Command;

type Search =
    unsafe extern "C" fn(*const u8, usize, *mut u16, usize, *mut u16, usize, *mut u64) -> u32;
type WriteList =
    unsafe extern "C" fn(*const u8, usize, *const u16, usize, u64, *mut u8, usize, *mut u64) -> u32;
type Judge = unsafe extern "C" fn(*const u8, usize, *const u8, usize, *mut u64) -> u32;
type Replay = unsafe extern "C" fn(*const u8, usize, *const u16, usize, *mut u64) -> u32;

/// The functions that are timed. An archive that lacks one is timed without it.
pub struct Archive {
    search: Option<Search>,
    write_list: Option<WriteList>,
    judge: Option<Judge>,
    replay: Option<Replay>,
}

extern "C" {
    fn dlopen(file: *const c_char, flags: c_int) -> *mut c_void;
    fn dlsym(object: *mut c_void, name: *const c_char) -> *mut c_void;
    fn dlerror() -> *const c_char;
}

/// All references are resolved at once.
const RTLD_NOW: c_int = 2;

impl Archive {
    /// Opens an archive; it stays open to the end of the process.
    pub fn open(archive: &Path) -> io::Result<Archive> {
        let object = std::env::temp_dir().join(format!("lcs-{}.so", std::process::id()));
        let linked = Command::new("gcc")
            .args(["-shared", "-o"])
            .arg(&object)
            .arg("-Wl,--whole-archive")
            .arg(archive)
            .arg("-Wl,--no-whole-archive")
            .status()?;
        if !linked.success() {
            return Err(io::Error::other("gcc cannot link the archive"));
        }
        let opened = open(&object);
        std::fs::remove_file(&object)?;
        let opened = opened?;
        // SAFETY: these are the types that include/lcs.h gives the functions.
        unsafe {
            Ok(Archive {
                search: symbol(opened, c"lcs_search").map(|at| std::mem::transmute(at)),
                write_list: symbol(opened, c"lcs_write_list").map(|at| std::mem::transmute(at)),
                judge: symbol(opened, c"lcs_judge").map(|at| std::mem::transmute(at)),
                replay: symbol(opened, c"lcs_replay").map(|at| std::mem::transmute(at)),
            })
        }
    }

    pub fn search(&self, table: &[u8], work: &mut [u16], run: &mut [u16]) -> Option<Answer> {
        let function = self.search?;
        // SAFETY: pointers and lengths are those of slices, and what is written to is lent alone.
        Some(answer(|out| unsafe {
            let (work, work_length) = (work.as_mut_ptr(), work.len());
            let (run, run_length) = (run.as_mut_ptr(), run.len());
            let (table, length) = (table.as_ptr(), table.len());
            function(table, length, work, work_length, run, run_length, out)
        }))
    }

    pub fn write_list(
        &self,
        table: &[u8],
        work: &[u16],
        rows: u64,
        list: &mut [u8],
    ) -> Option<Answer> {
        let function = self.write_list?;
        // SAFETY: as above.
        Some(answer(|out| unsafe {
            let (work, work_length) = (work.as_ptr(), work.len());
            let (list, list_length) = (list.as_mut_ptr(), list.len());
            let (table, length) = (table.as_ptr(), table.len());
            function(
                table,
                length,
                work,
                work_length,
                rows,
                list,
                list_length,
                out,
            )
        }))
    }

    pub fn judge(&self, table: &[u8], list: &[u8]) -> Option<Answer> {
        let function = self.judge?;
        // SAFETY: as above.
        Some(answer(|out| unsafe {
            function(table.as_ptr(), table.len(), list.as_ptr(), list.len(), out)
        }))
    }

    pub fn replay(&self, table: &[u8], run: &[u16]) -> Option<Answer> {
        let function = self.replay?;
        // SAFETY: as above.
        Some(answer(|out| unsafe {
            function(table.as_ptr(), table.len(), run.as_ptr(), run.len(), out)
        }))
    }
}

/// The answer of a call that fills three numbers.
fn answer(call: impl FnOnce(*mut u64) -> u32) -> Answer {
    let mut numbers = [0; 3];
    let code = call(numbers.as_mut_ptr());
    (code, numbers)
}

fn open(object: &Path) -> io::Result<*mut c_void> {
    let name = CString::new(object.as_os_str().as_encoded_bytes())?;
    // SAFETY: the name ends in 0, and the object has no code that runs when it is opened.
    let opened = unsafe { dlopen(name.as_ptr(), RTLD_NOW) };
    if opened.is_null() {
        // SAFETY: after a failure this is a text that ends in 0.
        let reason = unsafe { CStr::from_ptr(dlerror()) };
        return Err(io::Error::other(reason.to_string_lossy().into_owned()));
    }
    Ok(opened)
}

fn symbol(object: *mut c_void, name: &CStr) -> Option<*mut c_void> {
    // SAFETY: the object is open, and the name ends in 0.
    let at = unsafe { dlsym(object, name.as_ptr()) };
    (!at.is_null()).then_some(at)
}
