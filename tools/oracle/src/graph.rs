//! `linearize` on a graph given directly.

use bundle_format::limits;

use crate::driver::DependencyGraph;
use crate::error::Error;

const CUT: u8 = 1;
const TOO_MANY: u8 = 3;
const RING: u8 = 26;
const UNKNOWN_UNIT: u8 = 29;

#[derive(Clone, Debug, PartialEq, Eq)]
pub enum Linked {
    Order(Vec<usize>),
    Ring(Vec<usize>),
    Refused(u8),
}

/// `lists` has start and length for each unit.
pub fn linearize(lists: &[(usize, usize)], ids: &[usize]) -> Linked {
    if lists.is_empty() || lists.len() > limits::GRAPH_UNITS || ids.len() > limits::GRAPH_IDS {
        return Linked::Refused(TOO_MANY);
    }
    let slices: Option<Vec<&[usize]>> = lists
        .iter()
        .map(|&(start, length)| ids.get(start..start.checked_add(length)?))
        .collect();
    let Some(slices) = slices else {
        return Linked::Refused(CUT);
    };
    if slices
        .iter()
        .any(|list| list.iter().any(|&id| id >= lists.len()))
    {
        return Linked::Refused(UNKNOWN_UNIT);
    }
    let graph = DependencyGraph::of_lists(&slices).expect("no remapping, and the root is there");
    match graph.linked_order() {
        Ok(order) => Linked::Order(order),
        Err(diagnostic) => match *diagnostic.error {
            Error::LinearizationCycleDetected { deps } => {
                let ids = deps
                    .iter()
                    .map(|name| name.parse().expect("a name is an id"));
                Linked::Ring(ids.collect())
            }
            other => panic!("{other:?} from linearize"),
        },
    }
}

/// A line `START+LENGTH,.. ID,..`, `-` for no list or no id; the answer `ok ID ..`,
/// `no 26 ID ..` or `no NUMBER`.
pub fn answer(line: &str) -> Option<String> {
    let (lists, ids) = line.split_once(' ')?;
    let fields = |text: &'_ str| match text {
        "-" => Vec::new(),
        text => text.split(',').map(str::to_string).collect(),
    };
    let lists: Option<Vec<(usize, usize)>> = fields(lists)
        .iter()
        .map(|list| {
            let (start, length) = list.split_once('+')?;
            Some((start.parse().ok()?, length.parse().ok()?))
        })
        .collect();
    let ids: Option<Vec<usize>> = fields(ids).iter().map(|id| id.parse().ok()).collect();
    let (word, ids) = match linearize(&lists?, &ids?) {
        Linked::Order(order) => ("ok".to_string(), order),
        Linked::Ring(ring) => (format!("no {RING}"), ring),
        Linked::Refused(number) => (format!("no {number}"), Vec::new()),
    };
    Some(ids.iter().fold(word, |line, id| format!("{line} {id}")))
}
