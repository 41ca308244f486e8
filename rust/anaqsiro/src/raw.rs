//! The C interface, as `include/anaqsiro.h` declares it. Each call returns the refusal's number times 2^32 plus a value. The
//! value of `anaqsiro_rights` and `anaqsiro_rights_by` is not the rights alone: [`Held::from_answer`](crate::Held::from_answer)
//! takes it apart. A length is a number of elements, and those of a directory or a chain are 16 bits wide. A profile is the
//! number of a [`Profile`](crate::Profile), and any other is refused with 15. A limit is how many records a chain may have; the value
//! of `anaqsiro_plain` and `anaqsiro_rights_to` is the rights alone.

#[link(name = "anaqsiro", kind = "static")]
extern "C" {
    pub fn anaqsiro_make(block: *mut u8, len: usize) -> u64;
    pub fn anaqsiro_message(block: *mut u8, len: usize, message: *const u8, message_len: usize) -> u64;
    pub fn anaqsiro_wide(block: *mut u8, len: usize, message: *const u8, message_len: usize) -> u64;
    pub fn anaqsiro_rights(block: *const u8, len: usize, user: u64, object: u64, request: u64, profile: u64) -> u64;
    pub fn anaqsiro_may(block: *const u8, len: usize, user: u64, object: u64, request: u64, profile: u64) -> u64;
    pub fn anaqsiro_plain(block: *const u8, len: usize, user: u64, object: u64, request: u64, limit: u64) -> u64;
    pub fn anaqsiro_rights_to(block: *const u8, len: usize, user: u64, object: u64, request: u64, limit: u64) -> u64;
    pub fn anaqsiro_bears(block: *const u8, len: usize, user: u64, object: u64, kind: u64, key: u64, id: u64) -> u64;
    pub fn anaqsiro_find_slip(
        block: *const u8,
        len: usize,
        user: u64,
        object: u64,
        right: u64,
        user_chain: *mut u16,
        user_len: usize,
        object_chain: *mut u16,
        object_len: usize,
    ) -> u64;
    pub fn anaqsiro_check_slip(
        block: *const u8,
        len: usize,
        user: u64,
        object: u64,
        right: u64,
        user_chain: *const u16,
        user_len: usize,
        object_chain: *const u16,
        object_len: usize,
    ) -> u64;
    pub fn anaqsiro_write(block: *const u8, len: usize, kind: u64, key: u64, out: *mut u8, out_len: usize) -> u64;
    pub fn anaqsiro_read(block: *mut u8, len: usize, kind: u64, key: u64, text: *const u8, text_len: usize) -> u64;
    pub fn anaqsiro_directory(block: *const u8, len: usize, directory: *mut u16, directory_len: usize) -> u64;
    pub fn anaqsiro_message_by(
        block: *mut u8,
        len: usize,
        directory: *mut u16,
        directory_len: usize,
        message: *const u8,
        message_len: usize,
    ) -> u64;
    pub fn anaqsiro_wide_by(
        block: *mut u8,
        len: usize,
        directory: *mut u16,
        directory_len: usize,
        message: *const u8,
        message_len: usize,
    ) -> u64;
    pub fn anaqsiro_rights_by(
        block: *const u8,
        len: usize,
        directory: *const u16,
        directory_len: usize,
        user: u64,
        object: u64,
        request: u64,
        profile: u64,
    ) -> u64;
    pub fn anaqsiro_may_by(
        block: *const u8,
        len: usize,
        directory: *const u16,
        directory_len: usize,
        user: u64,
        object: u64,
        request: u64,
        profile: u64,
    ) -> u64;
    pub fn anaqsiro_write_by(
        block: *const u8,
        len: usize,
        directory: *const u16,
        directory_len: usize,
        kind: u64,
        key: u64,
        out: *mut u8,
        out_len: usize,
    ) -> u64;
    pub fn anaqsiro_read_by(
        block: *mut u8,
        len: usize,
        directory: *mut u16,
        directory_len: usize,
        kind: u64,
        key: u64,
        text: *const u8,
        text_len: usize,
    ) -> u64;
    pub fn anaqsiro_day(year: u64, month: u64, day: u64) -> u64;
    pub fn anaqsiro_date(day: u64) -> u64;
    pub fn anaqsiro_move(block: *mut u8, len: usize, list: *const u8, list_len: usize, old_day: u64, new_day: u64) -> u64;
    pub fn anaqsiro_next_change(list: *const u8, list_len: usize, day: u64) -> u64;
    pub fn anaqsiro_stands(appointment: *const u8, appointment_len: usize, day: u64) -> u64;
    pub fn anaqsiro_tested(block: *const u8, len: usize) -> u64;
    pub fn anaqsiro_size(block: *const u8, len: usize, kind: u64) -> u64;
    pub fn anaqsiro_record(block: *const u8, len: usize, number: u64) -> u64;
    pub fn anaqsiro_count(block: *const u8, len: usize, number: u64, letter: u64) -> u64;
}
