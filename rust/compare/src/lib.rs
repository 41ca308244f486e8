//! The functions of an archive on slices: of the archive that is linked, or of another one that is loaded as a shared object.

use anaqsiro::raw;
use second::drive::Library;
use std::ffi::{c_char, c_int, c_void, CStr, CString};
use std::mem::transmute;

extern "C" {
    fn dlopen(name: *const c_char, how: c_int) -> *mut c_void;
    fn dlsym(object: *mut c_void, name: *const c_char) -> *const c_void;
    fn dlerror() -> *const c_char;
}

/// Bind every name when the object is opened.
const NOW: c_int = 2;

/// Opens a shared object for good.
fn open(path: &str) -> Result<*mut c_void, String> {
    let path = CString::new(path).map_err(|_| "a path with a zero byte")?;
    // SAFETY: the path is a string of C, and so is what the loader says after a failure. An archive of ours has no code that
    // runs when it is opened.
    unsafe {
        let object = dlopen(path.as_ptr(), NOW);
        if object.is_null() {
            return Err(CStr::from_ptr(dlerror()).to_string_lossy().into_owned());
        }
        Ok(object)
    }
}

/// Stands for a function that an archive from before does not have yet.
extern "C" fn absent() -> u64 {
    panic!("the archive that was loaded does not have this function")
}

/// A function of a shared object.
fn function(object: *mut c_void, name: &str) -> *const c_void {
    let name = CString::new(name).expect("no zero byte");
    // SAFETY: the object is open, and the name is a string of C.
    let found = unsafe { dlsym(object, name.as_ptr()) };
    if found.is_null() {
        absent as *const c_void
    } else {
        found
    }
}

macro_rules! functions {
    ($($field:ident = $name:ident: $kind:ty,)*) => {
        /// The functions of an archive.
        pub struct Archive {
            $($field: $kind),*
        }

        impl Archive {
            /// Those of the archive that is linked.
            pub fn linked() -> Archive {
                Archive { $($field: raw::$name),* }
            }

            /// Those of an archive that was made a shared object. The questions of one from before request M-112 take no profile:
            /// it is their last argument, and by the conventions of C on these processors they pass over it.
            pub fn loaded(path: &str) -> Result<Archive, String> {
                let object = open(path)?;
                // SAFETY: the functions of these names have these types, but for a last argument that some do not look at.
                Ok(unsafe { Archive { $($field: transmute::<*const c_void, $kind>(function(object, stringify!($name)))),* } })
            }
        }
    };
}

functions! {
    make = anaqsiro_make: unsafe extern "C" fn(*mut u8, usize) -> u64,
    message = anaqsiro_message: unsafe extern "C" fn(*mut u8, usize, *const u8, usize) -> u64,
    wide = anaqsiro_wide: unsafe extern "C" fn(*mut u8, usize, *const u8, usize) -> u64,
    rights = anaqsiro_rights: unsafe extern "C" fn(*const u8, usize, u64, u64, u64, u64) -> u64,
    may = anaqsiro_may: unsafe extern "C" fn(*const u8, usize, u64, u64, u64, u64) -> u64,
    plain = anaqsiro_plain: unsafe extern "C" fn(*const u8, usize, u64, u64, u64, u64) -> u64,
    rights_to = anaqsiro_rights_to: unsafe extern "C" fn(*const u8, usize, u64, u64, u64, u64) -> u64,
    bears = anaqsiro_bears: unsafe extern "C" fn(*const u8, usize, u64, u64, u64, u64, u64) -> u64,
    find_slip = anaqsiro_find_slip:
        unsafe extern "C" fn(*const u8, usize, u64, u64, u64, *mut u16, usize, *mut u16, usize) -> u64,
    check_slip = anaqsiro_check_slip:
        unsafe extern "C" fn(*const u8, usize, u64, u64, u64, *const u16, usize, *const u16, usize) -> u64,
    write = anaqsiro_write: unsafe extern "C" fn(*const u8, usize, u64, u64, *mut u8, usize) -> u64,
    read = anaqsiro_read: unsafe extern "C" fn(*mut u8, usize, u64, u64, *const u8, usize) -> u64,
    tested = anaqsiro_tested: unsafe extern "C" fn(*const u8, usize) -> u64,
    size = anaqsiro_size: unsafe extern "C" fn(*const u8, usize, u64) -> u64,
    record = anaqsiro_record: unsafe extern "C" fn(*const u8, usize, u64) -> u64,
    count = anaqsiro_count: unsafe extern "C" fn(*const u8, usize, u64, u64) -> u64,
    directory = anaqsiro_directory: unsafe extern "C" fn(*const u8, usize, *mut u16, usize) -> u64,
    message_by = anaqsiro_message_by: unsafe extern "C" fn(*mut u8, usize, *mut u16, usize, *const u8, usize) -> u64,
    wide_by = anaqsiro_wide_by: unsafe extern "C" fn(*mut u8, usize, *mut u16, usize, *const u8, usize) -> u64,
    rights_by = anaqsiro_rights_by: unsafe extern "C" fn(*const u8, usize, *const u16, usize, u64, u64, u64, u64) -> u64,
    may_by = anaqsiro_may_by: unsafe extern "C" fn(*const u8, usize, *const u16, usize, u64, u64, u64, u64) -> u64,
    write_by = anaqsiro_write_by: unsafe extern "C" fn(*const u8, usize, *const u16, usize, u64, u64, *mut u8, usize) -> u64,
    read_by = anaqsiro_read_by: unsafe extern "C" fn(*mut u8, usize, *mut u16, usize, u64, u64, *const u8, usize) -> u64,
    day = anaqsiro_day: unsafe extern "C" fn(u64, u64, u64) -> u64,
    date = anaqsiro_date: unsafe extern "C" fn(u64) -> u64,
    move_to = anaqsiro_move: unsafe extern "C" fn(*mut u8, usize, *const u8, usize, u64, u64) -> u64,
    next_change = anaqsiro_next_change: unsafe extern "C" fn(*const u8, usize, u64) -> u64,
    stands = anaqsiro_stands: unsafe extern "C" fn(*const u8, usize, u64) -> u64,
}

// SAFETY: each pointer and length below are those of one slice, borrowed for the call.
impl Library for Archive {
    fn make(&self, block: &mut [u8]) -> u64 {
        unsafe { (self.make)(block.as_mut_ptr(), block.len()) }
    }

    fn message(&self, block: &mut [u8], message: &[u8]) -> u64 {
        unsafe { (self.message)(block.as_mut_ptr(), block.len(), message.as_ptr(), message.len()) }
    }

    fn wide(&self, block: &mut [u8], message: &[u8]) -> u64 {
        unsafe { (self.wide)(block.as_mut_ptr(), block.len(), message.as_ptr(), message.len()) }
    }

    fn rights(&self, block: &[u8], user: u64, object: u64, request: u64, profile: u64) -> u64 {
        unsafe { (self.rights)(block.as_ptr(), block.len(), user, object, request, profile) }
    }

    fn may(&self, block: &[u8], user: u64, object: u64, request: u64, profile: u64) -> u64 {
        unsafe { (self.may)(block.as_ptr(), block.len(), user, object, request, profile) }
    }

    fn plain(&self, block: &[u8], user: u64, object: u64, request: u64, limit: u64) -> u64 {
        unsafe { (self.plain)(block.as_ptr(), block.len(), user, object, request, limit) }
    }

    fn rights_to(&self, block: &[u8], user: u64, object: u64, request: u64, limit: u64) -> u64 {
        unsafe { (self.rights_to)(block.as_ptr(), block.len(), user, object, request, limit) }
    }

    fn bears(&self, block: &[u8], user: u64, object: u64, kind: u64, key: u64, id: u64) -> u64 {
        unsafe { (self.bears)(block.as_ptr(), block.len(), user, object, kind, key, id) }
    }

    fn find_slip(&self, block: &[u8], user: u64, object: u64, right: u64, hers: &mut [u16], its: &mut [u16]) -> u64 {
        let [hers, its] = [hers, its].map(|list| (list.as_mut_ptr(), list.len()));
        unsafe { (self.find_slip)(block.as_ptr(), block.len(), user, object, right, hers.0, hers.1, its.0, its.1) }
    }

    fn check_slip(&self, block: &[u8], user: u64, object: u64, right: u64, hers: &[u16], its: &[u16]) -> u64 {
        let [hers, its] = [hers, its].map(|list| (list.as_ptr(), list.len()));
        unsafe { (self.check_slip)(block.as_ptr(), block.len(), user, object, right, hers.0, hers.1, its.0, its.1) }
    }

    fn write(&self, block: &[u8], kind: u64, key: u64, out: &mut [u8]) -> u64 {
        unsafe { (self.write)(block.as_ptr(), block.len(), kind, key, out.as_mut_ptr(), out.len()) }
    }

    fn read(&self, block: &mut [u8], kind: u64, key: u64, text: &[u8]) -> u64 {
        unsafe { (self.read)(block.as_mut_ptr(), block.len(), kind, key, text.as_ptr(), text.len()) }
    }

    fn tested(&self, block: &[u8]) -> u64 {
        unsafe { (self.tested)(block.as_ptr(), block.len()) }
    }

    fn size(&self, block: &[u8], kind: u64) -> u64 {
        unsafe { (self.size)(block.as_ptr(), block.len(), kind) }
    }

    fn record(&self, block: &[u8], number: u64) -> u64 {
        unsafe { (self.record)(block.as_ptr(), block.len(), number) }
    }

    fn count(&self, block: &[u8], number: u64, letter: u64) -> u64 {
        unsafe { (self.count)(block.as_ptr(), block.len(), number, letter) }
    }

    fn directory(&self, block: &[u8], directory: &mut [u16]) -> u64 {
        unsafe { (self.directory)(block.as_ptr(), block.len(), directory.as_mut_ptr(), directory.len()) }
    }

    fn message_by(&self, block: &mut [u8], directory: &mut [u16], message: &[u8]) -> u64 {
        let (entries, many) = (directory.as_mut_ptr(), directory.len());
        unsafe { (self.message_by)(block.as_mut_ptr(), block.len(), entries, many, message.as_ptr(), message.len()) }
    }

    fn wide_by(&self, block: &mut [u8], directory: &mut [u16], message: &[u8]) -> u64 {
        let (entries, many) = (directory.as_mut_ptr(), directory.len());
        unsafe { (self.wide_by)(block.as_mut_ptr(), block.len(), entries, many, message.as_ptr(), message.len()) }
    }

    fn rights_by(&self, block: &[u8], directory: &[u16], user: u64, object: u64, request: u64, profile: u64) -> u64 {
        let (entries, many) = (directory.as_ptr(), directory.len());
        unsafe { (self.rights_by)(block.as_ptr(), block.len(), entries, many, user, object, request, profile) }
    }

    fn may_by(&self, block: &[u8], directory: &[u16], user: u64, object: u64, request: u64, profile: u64) -> u64 {
        let (entries, many) = (directory.as_ptr(), directory.len());
        unsafe { (self.may_by)(block.as_ptr(), block.len(), entries, many, user, object, request, profile) }
    }

    fn write_by(&self, block: &[u8], directory: &[u16], kind: u64, key: u64, out: &mut [u8]) -> u64 {
        let (entries, many) = (directory.as_ptr(), directory.len());
        unsafe { (self.write_by)(block.as_ptr(), block.len(), entries, many, kind, key, out.as_mut_ptr(), out.len()) }
    }

    fn read_by(&self, block: &mut [u8], directory: &mut [u16], kind: u64, key: u64, text: &[u8]) -> u64 {
        let (entries, many) = (directory.as_mut_ptr(), directory.len());
        unsafe { (self.read_by)(block.as_mut_ptr(), block.len(), entries, many, kind, key, text.as_ptr(), text.len()) }
    }

    fn day(&self, year: u64, month: u64, day: u64) -> u64 {
        unsafe { (self.day)(year, month, day) }
    }

    fn date(&self, day: u64) -> u64 {
        unsafe { (self.date)(day) }
    }

    fn move_to(&self, block: &mut [u8], list: &[u8], old: u64, new: u64) -> u64 {
        unsafe { (self.move_to)(block.as_mut_ptr(), block.len(), list.as_ptr(), list.len(), old, new) }
    }

    fn next_change(&self, list: &[u8], day: u64) -> u64 {
        unsafe { (self.next_change)(list.as_ptr(), list.len(), day) }
    }

    fn stands(&self, appointment: &[u8], day: u64) -> u64 {
        unsafe { (self.stands)(appointment.as_ptr(), appointment.len(), day) }
    }
}
