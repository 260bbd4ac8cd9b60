//! The functions of crates/steps_c, by the exports of crates/steps_c_c, wrapped. None has a precondition.

use bundle_format::limits::{FILES, USES};

/// Where what is told stands, as crates/steps_c names it.
const ASSEMBLED_FILES: usize = 3;
const ASSEMBLED_IDS: usize = ASSEMBLED_FILES + FILES;
const GRAPH_FILES: usize = 1;
const GRAPH_STARTS: usize = GRAPH_FILES + FILES;
const GRAPH_LENGTHS: usize = GRAPH_STARTS + FILES;
const GRAPH_IDS: usize = GRAPH_LENGTHS + FILES;

extern "C" {
    fn steps_assemble(
        s: *const u8,
        s_len: usize,
        report: *mut u8,
        report_len: usize,
        image: *mut u8,
        image_len: usize,
        out: *mut usize,
        out_len: usize,
    ) -> u8;
    fn steps_discover(s: *const u8, s_len: usize, out: *mut usize, out_len: usize) -> u8;
    fn steps_is_keyword(s: *const u8, s_len: usize) -> u8;
    fn steps_starts_with(f: *const u8, f_len: usize, p: *const u8, p_len: usize) -> u8;
}

pub fn is_keyword(s: &[u8]) -> bool {
    // SAFETY: the pointers are those of slices that live over the call, with their lengths.
    unsafe { steps_is_keyword(s.as_ptr(), s.len()) == 1 }
}

pub fn starts_with(f: &[u8], p: &[u8]) -> bool {
    // SAFETY: as above.
    unsafe { steps_starts_with(f.as_ptr(), f.len(), p.as_ptr(), p.len()) == 1 }
}

/// A number with its place in out[0]; or 0 with the report's length in out[0], the count of units in
/// out[1], the image's length in out[2], each unit's place among the files, and the linked order.
pub fn assemble(bundle: &[u8], report: &mut [u8], image: &mut [u8]) -> crate::assemble::Told {
    use crate::assemble::Told;
    let mut out = [usize::MAX; ASSEMBLED_IDS + FILES];
    // SAFETY: as above.
    let number = unsafe {
        steps_assemble(
            bundle.as_ptr(),
            bundle.len(),
            report.as_mut_ptr(),
            report.len(),
            image.as_mut_ptr(),
            image.len(),
            out.as_mut_ptr(),
            out.len(),
        )
    };
    let (told, units) = match number {
        0 => (ASSEMBLED_FILES, out[1].min(FILES)),
        _ => (1, 0),
    };
    let rest = [
        &out[told..ASSEMBLED_FILES],
        &out[ASSEMBLED_FILES + units..ASSEMBLED_IDS],
        &out[ASSEMBLED_IDS + units..],
    ];
    if rest.concat().iter().any(|&number| number != usize::MAX) {
        return Told::Stray(out.to_vec());
    }
    match (number, out[0], out[2]) {
        (0, 0, length) => Told::Linked(
            out[ASSEMBLED_FILES..][..units].to_vec(),
            out[ASSEMBLED_IDS..][..units].to_vec(),
            image[..length.min(image.len())].to_vec(),
        ),
        (0, length, 0) if units == 0 => Told::Report(report[..length.min(report.len())].to_vec()),
        (0, ..) => Told::Stray(out.to_vec()),
        (number, place, _) => Told::Refused(number, place),
    }
}

/// A number with its place; or each unit's place among the files, and the ids that it lists: the
/// count of units in out[0], the files, where the lists start, how long they are, and the ids.
pub fn discover(bundle: &[u8]) -> Result<crate::order::Graph, (u8, usize)> {
    let mut out = [usize::MAX; GRAPH_IDS + USES];
    // SAFETY: as above.
    let number =
        unsafe { steps_discover(bundle.as_ptr(), bundle.len(), out.as_mut_ptr(), out.len()) };
    if number != 0 {
        return Err((number, out[0]));
    }
    let units = out[0].min(FILES);
    let list = |unit: usize| {
        let (start, length) = (out[GRAPH_STARTS + unit], out[GRAPH_LENGTHS + unit]);
        let ids = out[GRAPH_IDS..].iter().skip(start).take(length);
        ids.copied().collect::<Vec<usize>>()
    };
    let files = out[GRAPH_FILES..][..units].to_vec();
    Ok((files, (0..units).map(list).collect()))
}
