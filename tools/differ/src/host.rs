//! The library as the runs ask it.

use gontsamy::exports::{self, Found};
use gontsamy::layout::{
    ANSWER, ANSWER_ENTRIES, ANSWER_FILES, ANSWER_IDS, ANSWER_IMAGE, ANSWER_PLACE, ANSWER_REPORT,
    ANSWER_UNITS, FILES, IMAGE, REPORT, ROWS,
};

use crate::order::Told;

/// What no answer has.
pub const UNTOLD: usize = usize::MAX;

/// 0, or a number from 1 to 13 and its place.
pub fn check(bundle: &[u8]) -> (u8, usize) {
    let mut place = UNTOLD;
    let number = exports::check(bundle, &mut place);
    (number, place)
}

/// 0 and the length of the section at the start of `out`; or a number and its place.
pub fn remappings(list: &[u8], out: &mut [u8]) -> (u8, usize) {
    let mut told = UNTOLD;
    let number = exports::remappings(list, out, &mut told);
    (number, told)
}

/// What a link returns, and what it leaves in buffers that hold every answer.
#[derive(PartialEq, Eq)]
pub struct Linked {
    number: u8,
    report: Vec<u8>,
    image: Vec<u8>,
    answer: Vec<usize>,
    rows: Vec<u64>,
}

impl Linked {
    /// Whether it is a linked program, no refusal and no report.
    pub fn is_program(&self) -> bool {
        self.number == 0 && self.answer[ANSWER_REPORT] == 0
    }
}

pub fn link(bundle: &[u8]) -> Linked {
    let mut linked = Linked {
        number: 0,
        report: vec![0; REPORT],
        image: vec![0; IMAGE],
        answer: vec![UNTOLD; ANSWER],
        rows: vec![0; ROWS],
    };
    linked.number = exports::link(
        bundle,
        &mut linked.report,
        &mut linked.image,
        &mut linked.answer,
        &mut linked.rows,
    );
    linked
}

/// 0 with a file's index or `FOLDER` with a folder's, and how many segments are left; or a number and its place. What is not told is
/// `UNTOLD`.
pub fn resolve(bundle: &[u8], importer: &[u8], segments: &[u8]) -> (u8, Found) {
    let mut found = Found {
        index: UNTOLD,
        left: UNTOLD,
        place: UNTOLD,
    };
    let kind = exports::resolve(bundle, importer, segments, &mut found);
    (kind, found)
}

/// A number with its place; or a report; or each unit's place among the files, and the linked order. Anything else in the answer is
/// stray, and so is an answer that is told where one number too few was lent.
pub fn order(bundle: &[u8], report: &mut [u8]) -> Told {
    let mut short = [UNTOLD; ANSWER - 1];
    let before = report.to_vec();
    if exports::order(bundle, report, &mut short) != 14
        || short != [UNTOLD; ANSWER - 1]
        || before != report
    {
        return Told::Stray(short.to_vec());
    }
    let mut answer = [UNTOLD; ANSWER];
    let number = exports::order(bundle, report, &mut answer);
    let units = answer[ANSWER_UNITS].min(FILES);
    let files = &answer[ANSWER_FILES..][..FILES];
    let ids = &answer[ANSWER_IDS..][..FILES];
    let rest = files[units..].iter().chain(&ids[units..]);
    if rest.copied().any(|number| number != UNTOLD)
        || answer[ANSWER_IMAGE] != 0
        || answer[ANSWER_ENTRIES] != 0
    {
        return Told::Stray(answer.to_vec());
    }
    match (number, answer[ANSWER_PLACE], answer[ANSWER_REPORT]) {
        (0, 0, 0) => Told::Linked(files[..units].to_vec(), ids[..units].to_vec()),
        (0, 0, length) if units == 0 => Told::Report(report[..length.min(report.len())].to_vec()),
        (1..=255, place, 0) if units == 0 => Told::Refused(number, place),
        _ => Told::Stray(answer.to_vec()),
    }
}
