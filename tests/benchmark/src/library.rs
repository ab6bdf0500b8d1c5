//! An archive's solving, loaded as a shared library, so that two archives with the same names can
//! run in one program; and the processor time that a call takes.

use std::ffi::{c_void, CStr, CString};
use std::os::raw::{c_char, c_int, c_long};

/// What solving told: its number, the lines or the place, and the pairs.
#[repr(C)]
#[derive(Clone, Copy, Debug, PartialEq, Eq)]
pub struct Told {
    pub number: u64,
    pub value: usize,
    pub pairs: u64,
}

impl Told {
    /// The answer in document 01's word, or by its number.
    pub fn word(&self) -> String {
        match self.number {
            14 => "wide".into(),
            15 => "full".into(),
            64 => "agrees".into(),
            65 => "cannot".into(),
            66 => "unwritten".into(),
            number => format!("refused {number}"),
        }
    }

    pub fn is_decided(&self) -> bool {
        matches!(self.number, 64..=66)
    }

    /// Whether the question can agree, or cannot; none if it was refused.
    pub fn can_agree(&self) -> Option<bool> {
        match self.number {
            64 | 66 => Some(true),
            65 => Some(false),
            _ => None,
        }
    }
}

/// `jemuling_solve` of include/jemuling.h, or `jemuling_preview_solve`.
type Solve = unsafe extern "C" fn(*const u8, usize, *mut u8, usize, *mut u8, usize) -> Told;

#[link(name = "dl")]
extern "C" {
    fn dlopen(file: *const c_char, mode: c_int) -> *mut c_void;
    fn dlsym(library: *mut c_void, name: *const c_char) -> *mut c_void;
    fn dlerror() -> *const c_char;
}

/// All of it at once, its names for nobody else.
const RTLD_NOW: c_int = 2;

/// A library with buffers of its own; one of an earlier archive may have no preview.
pub struct Library {
    solve: Solve,
    preview: Option<Solve>,
    book: Vec<u8>,
    sheet: Vec<u8>,
}

impl Library {
    /// Loads a library for good.
    pub fn load(file: &str) -> Result<Library, String> {
        let file = CString::new(file).map_err(|error| error.to_string())?;
        // SAFETY: the string ends in 0, and an archive's library runs nothing when it is loaded.
        let library = unsafe { dlopen(file.as_ptr(), RTLD_NOW) };
        if library.is_null() {
            return Err(last_error());
        }
        Ok(Library {
            solve: find(library, "jemuling_solve")?,
            preview: find(library, "jemuling_preview_solve").ok(),
            book: vec![0; 65_536],
            sheet: vec![0; 64],
        })
    }

    pub fn solve(&mut self, question: &[u8]) -> Told {
        run(self.solve, question, &mut self.book, &mut self.sheet)
    }

    /// What the preview tells, if there is one.
    pub fn preview(&mut self, question: &[u8]) -> Option<Told> {
        let (book, sheet) = (&mut self.book[..16_384], &mut self.sheet);
        self.preview
            .map(|preview| run(preview, question, book, sheet))
    }
}

/// A call for solving by its name, in a library that was loaded.
fn find(library: *mut c_void, name: &str) -> Result<Solve, String> {
    let name = CString::new(name).map_err(|error| error.to_string())?;
    // SAFETY: the library is never closed, and the string ends in 0.
    let found = unsafe { dlsym(library, name.as_ptr()) };
    if found.is_null() {
        return Err(last_error());
    }
    // SAFETY: the name is that of a call which the header declares so.
    Ok(unsafe { std::mem::transmute::<*mut c_void, Solve>(found) })
}

fn run(call: Solve, question: &[u8], book: &mut [u8], sheet: &mut [u8]) -> Told {
    // SAFETY: the call reads the question and reads and writes the buffers within their lengths,
    // and keeps no pointer.
    unsafe {
        call(
            question.as_ptr(),
            question.len(),
            book.as_mut_ptr(),
            book.len(),
            sheet.as_mut_ptr(),
            sheet.len(),
        )
    }
}

fn last_error() -> String {
    // SAFETY: asked right after a failure, which leaves a string that ends in 0.
    let said = unsafe { CStr::from_ptr(dlerror()) };
    said.to_string_lossy().into_owned()
}

#[repr(C)]
struct Timespec {
    seconds: c_long,
    nanoseconds: c_long,
}

extern "C" {
    fn clock_gettime(clock: c_int, time: *mut Timespec) -> c_int;
}

const CLOCK_THREAD_CPUTIME_ID: c_int = 3;

/// The processor time of this thread, in nanoseconds.
pub fn processor_time() -> u64 {
    let mut time = Timespec {
        seconds: 0,
        nanoseconds: 0,
    };
    // SAFETY: the call writes the struct that it is lent.
    let failed = unsafe { clock_gettime(CLOCK_THREAD_CPUTIME_ID, &mut time) };
    assert_eq!(failed, 0, "the thread's clock");
    time.seconds as u64 * 1_000_000_000 + time.nanoseconds as u64
}
