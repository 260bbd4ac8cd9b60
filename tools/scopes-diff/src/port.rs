//! The functions of crates/scopes_c, by the exports of crates/scopes_c_c, wrapped. None has a precondition.

extern "C" {
    fn scopes_replay(s: *const u8, s_len: usize, out: *mut u32, out_len: usize) -> usize;
    fn scopes_walk(s: *const u8, s_len: usize, out: *mut u32, out_len: usize) -> usize;
    fn scopes_rows(s: *const u8, s_len: usize, out: *mut u64, out_len: usize) -> usize;
}

/// The answers to a list of calls; gives how many there were.
pub fn replay(list: &[u8], out: &mut [u32]) -> usize {
    // SAFETY: the pointers are those of slices that live over the call, with their lengths.
    unsafe { scopes_replay(list.as_ptr(), list.len(), out.as_mut_ptr(), out.len()) }
}

/// The same over arrays that are lent from call to call.
pub fn walk(list: &[u8], out: &mut [u32]) -> usize {
    // SAFETY: as above.
    unsafe { scopes_walk(list.as_ptr(), list.len(), out.as_mut_ptr(), out.len()) }
}

/// An entry: kind, visibility, scope, mark, origin, what a copy shows (a scope and a time), and
/// the four words of its name.
pub type Row = [u64; 11];

/// The tree that a list of calls leaves.
pub fn rows(list: &[u8], out: &mut [Row]) -> usize {
    let numbers = out.as_flattened_mut();
    // SAFETY: as above.
    unsafe {
        scopes_rows(
            list.as_ptr(),
            list.len(),
            numbers.as_mut_ptr(),
            numbers.len(),
        )
    }
}

/// An answer in the oracle's words.
pub fn answer(number: u32) -> String {
    match (number >> 16, number & 0xffff) {
        (0, _) => "ok".to_string(),
        (1, mark) => format!("ok {mark}"),
        (_, number) => format!("no {number}"),
    }
}
