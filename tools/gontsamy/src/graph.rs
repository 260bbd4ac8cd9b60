//! The linked order of a graph given directly.

use crate::exports;
use crate::layout::{IDS, UNITS};
use crate::Number;

/// A graph: unit u, below `units`, lists the ids from `start[u]` on, `length[u]` of them, among the first `count` of `ids`. Any numbers
/// may stand there.
#[derive(Clone, Copy, Debug, PartialEq, Eq)]
pub struct Graph {
    /// Where each unit's list starts.
    pub start: [u16; UNITS],
    /// How long it is.
    pub length: [u16; UNITS],
    /// All lists.
    pub ids: [u16; IDS],
    /// How many units there are.
    pub units: usize,
    /// How many ids there are.
    pub count: usize,
}

impl Graph {
    /// The graph of these lists, one for each unit; nothing where there is no place for them.
    pub fn of(lists: &[&[u16]]) -> Option<Graph> {
        let mut graph = Graph {
            start: [0; UNITS],
            length: [0; UNITS],
            ids: [0; IDS],
            units: lists.len(),
            count: 0,
        };
        for (unit, list) in lists.iter().enumerate() {
            let end = graph.count + list.len();
            graph.ids.get_mut(graph.count..end)?.copy_from_slice(list);
            *graph.start.get_mut(unit)? = graph.count as u16;
            graph.length[unit] = list.len() as u16;
            graph.count = end;
        }
        Some(graph)
    }
}

/// Ids of units.
#[derive(Clone, Copy, Debug, PartialEq, Eq)]
pub struct Ids {
    ids: [u16; UNITS],
    count: usize,
}

impl Ids {
    /// The ids.
    pub fn as_slice(&self) -> &[u16] {
        self.ids.get(..self.count).unwrap_or_default()
    }
}

/// What linearization answers.
#[derive(Clone, Copy, Debug, PartialEq, Eq)]
pub enum Linearized {
    /// The units that unit 0 reaches, each after every other that it lists.
    Order(Ids),
    /// 26: units of which each lists the next, and the last the first.
    Ring(Ids),
    /// 3, 1 or 29.
    Refused(Number),
}

/// The linked order of a graph.
///
/// ```
/// use gontsamy::{linearize, Graph, Linearized, Number};
///
/// let graph = Graph::of(&[&[1, 2], &[2], &[]]).unwrap();
/// let Linearized::Order(order) = linearize(&graph) else { panic!() };
/// assert_eq!(order.as_slice(), [2, 1, 0]);
///
/// let ring = Graph::of(&[&[1], &[0]]).unwrap();
/// let Linearized::Ring(ring) = linearize(&ring) else { panic!() };
/// assert_eq!(ring.as_slice(), [0, 1]);
///
/// assert_eq!(linearize(&Graph::of(&[&[1]]).unwrap()), Linearized::Refused(Number(29)));
/// ```
pub fn linearize(graph: &Graph) -> Linearized {
    let mut ids = Ids {
        ids: [0; UNITS],
        count: 0,
    };
    match exports::linearize(graph, &mut ids.ids, &mut ids.count) {
        0 => Linearized::Order(ids),
        26 => Linearized::Ring(ids),
        number => Linearized::Refused(Number(number)),
    }
}
