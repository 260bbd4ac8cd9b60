//! Graphs given directly, as lines of `oracle --graph`.

use bundle_generate::Rng;

use bundle_format::limits::{GRAPH_IDS as IDS, GRAPH_UNITS as UNITS};

/// Start and length of each unit's list, and the ids.
#[derive(Clone, Default)]
struct Graph {
    lists: Vec<(usize, usize)>,
    ids: Vec<usize>,
}

impl Graph {
    /// The lists one after another.
    fn of(lists: &[Vec<usize>]) -> Graph {
        let mut graph = Graph::default();
        for list in lists {
            graph.lists.push((graph.ids.len(), list.len()));
            graph.ids.extend(list);
        }
        graph
    }

    fn line(&self) -> String {
        let or_none = |words: Vec<String>| match words.is_empty() {
            true => "-".to_string(),
            false => words.join(","),
        };
        let lists = self
            .lists
            .iter()
            .map(|(start, len)| format!("{start}+{len}"));
        let ids = self.ids.iter().map(usize::to_string);
        format!("{} {}", or_none(lists.collect()), or_none(ids.collect()))
    }
}

/// Every list without repetition of ids under `units`, in every order.
fn every_list(units: usize) -> Vec<Vec<usize>> {
    let mut lists = vec![Vec::new()];
    let mut at = 0;
    while at < lists.len() {
        for id in 0..units {
            if !lists[at].contains(&id) {
                let longer = [&lists[at][..], &[id]].concat();
                lists.push(longer);
            }
        }
        at += 1;
    }
    lists
}

/// All graphs of one to three units whose lists have an id once: in every order 4,123, in rising
/// order alone 530.
pub fn small(rising: bool) -> Vec<String> {
    let mut lines = Vec::new();
    for units in 1..=3 {
        let mut lists = every_list(units);
        lists.retain(|list| !rising || list.is_sorted());
        for number in 0..lists.len().pow(units as u32) {
            let mut left = number;
            let graph: Vec<Vec<usize>> = (0..units)
                .map(|_| {
                    let list = lists[left % lists.len()].clone();
                    left /= lists.len();
                    list
                })
                .collect();
            lines.push(Graph::of(&graph).line());
        }
    }
    lines
}

/// The edges of the numbers 3, 1 and 29.
pub fn edges() -> Vec<String> {
    let with = |lists: Vec<(usize, usize)>, ids: Vec<usize>| Graph { lists, ids }.line();
    let empty = |units| vec![(0, 0); units];
    vec![
        with(vec![], vec![]),
        with(vec![], vec![0]),
        with(empty(64), vec![]),
        with(empty(65), vec![]),
        with(empty(300), vec![]),
        with(empty(1), vec![0; 256]),
        with(empty(1), vec![0; 257]),
        with(empty(65), vec![0; 257]),
        with(vec![(0, 256)], vec![0; 256]),
        with(vec![(0, 257)], vec![0; 256]),
        with(vec![(256, 0)], vec![0; 256]),
        with(vec![(257, 0)], vec![0; 256]),
        with(vec![(1, 0)], vec![]),
        with(vec![(0, 1)], vec![]),
        with(vec![(65_535, 1)], vec![0]),
        with(vec![(0, 65_535)], vec![0]),
        with(vec![(65_535, 65_535)], vec![0]),
        with(vec![(0, 1)], vec![1]),
        with(vec![(0, 0)], vec![1]),
        with(vec![(0, 1), (0, 0)], vec![1]),
        with(vec![(0, 1), (1, 2)], vec![9, 1]),
        with(vec![(0, 1), (0, 1)], vec![65_535]),
        with(vec![(0, 1); 64], vec![63]),
        with(vec![(0, 1); 64], vec![64]),
    ]
}

/// Ids in a drawn order, 0 first in most.
fn names(rng: &mut Rng, units: usize) -> Vec<usize> {
    let mut names: Vec<usize> = (0..units).collect();
    let keep = usize::from(rng.chance(90));
    for at in (keep + 1..units).rev() {
        names.swap(at, rng.between(keep, at));
    }
    names
}

/// A shape over units 0, 1, ..: chain, ring, star, diamonds, layers, or by chance.
fn shape(rng: &mut Rng) -> Vec<Vec<usize>> {
    let units = match rng.below(4) {
        0 => rng.between(1, 8),
        1 => rng.between(2, 20),
        2 => rng.between(2, UNITS),
        _ => *rng.pick(&[63, 64]),
    };
    let mut lists = vec![Vec::new(); units];
    match rng.below(8) {
        // A chain.
        0 => (1..units).for_each(|unit| lists[unit - 1].push(unit)),
        // A chain that ends in a ring, or in itself.
        1 => {
            (1..units).for_each(|unit| lists[unit - 1].push(unit));
            lists[units - 1].push(rng.below(units));
        }
        // A star, some rays of which point back or on.
        2 => {
            lists[0] = (1..units).collect();
            for list in &mut lists[1..] {
                if rng.chance(5) {
                    list.push(rng.below(units));
                }
            }
        }
        // Diamonds in a row: of three units each, the first lists two, which list the next.
        3 => {
            for first in (0..units).step_by(3) {
                for side in [first + 1, first + 2] {
                    if side < units {
                        lists[first].push(side);
                        if first + 3 < units {
                            lists[side].push(first + 3);
                        }
                    }
                }
            }
        }
        // Each unit lists the next few.
        4 => {
            let width = rng.between(1, 4);
            for (unit, list) in lists.iter_mut().enumerate() {
                *list = (unit + 1..units.min(unit + 1 + width)).collect();
            }
        }
        // Layers: a unit lists some of the next layer.
        5 => {
            let width = rng.between(1, 8);
            for (unit, list) in lists.iter_mut().enumerate() {
                let next = (unit / width + 1) * width;
                for other in next..units.min(next + width) {
                    if rng.chance(50) {
                        list.push(other);
                    }
                }
            }
        }
        // By chance, upwards: no ring.
        6 => {
            let percent = *rng.pick(&[2, 5, 10, 30]);
            for (unit, list) in lists.iter_mut().enumerate() {
                for other in unit + 1..units {
                    if rng.chance(percent) {
                        list.push(other);
                    }
                }
            }
        }
        // By chance.
        _ => {
            let edges = rng.between(0, 2 * units);
            for _ in 0..edges {
                let unit = rng.below(units);
                lists[unit].push(rng.below(units));
            }
        }
    }
    lists
}

pub fn drawn(rng: &mut Rng) -> String {
    let mut lists = shape(rng);
    let units = lists.len();
    // Other edges, in a few: a shape with a shortcut, a ring, or an id twice in a list.
    if rng.chance(30) {
        for _ in 0..rng.between(1, 3) {
            let (unit, other) = (rng.below(units), rng.below(units));
            let at = rng.below(lists[unit].len() + 1);
            lists[unit].insert(at, other);
        }
    }
    for list in &mut lists {
        if rng.chance(20) {
            list.reverse();
        }
    }
    let names = names(rng, units);
    let mut named = vec![Vec::new(); units];
    for (unit, list) in lists.iter().enumerate() {
        named[names[unit]] = list.iter().map(|&id| names[id]).collect();
    }
    let mut left = IDS;
    for list in &mut named {
        list.truncate(left);
        left -= list.len();
    }
    let mut graph = Graph::of(&named);
    // Lists that share ids, and malformed graphs.
    match rng.below(40) {
        0 => {
            let (from, to) = (rng.below(units), rng.below(units));
            graph.lists[to] = graph.lists[from];
        }
        1 if !graph.ids.is_empty() => {
            let start = rng.below(graph.ids.len());
            let len = rng.below(graph.ids.len() - start + 2);
            graph.lists[rng.below(units)] = (start, len);
        }
        2 => graph.lists[rng.below(units)].0 += rng.between(1, 300),
        3 if !graph.ids.is_empty() => {
            let at = rng.below(graph.ids.len());
            graph.ids[at] = *rng.pick(&[units, units + 1, 64, 255, 65_535]);
        }
        4 => graph.ids.push(units + rng.below(3)),
        5 => graph.ids.resize(rng.between(255, 258), 0),
        6 => graph.lists.resize(rng.between(63, 66), (0, 0)),
        7 => {
            graph.lists.truncate(rng.below(units));
        }
        _ => {}
    }
    graph.line()
}

/// As many lines as fit in so many bytes: a ring that does not start at the walk's first unit, the
/// edges, the small graphs in rising order, drawn ones.
pub fn sample(seed: u64, bytes: usize) -> Vec<String> {
    let ring = Graph::of(&[vec![1], vec![2], vec![3], vec![2]]).line();
    let mut lines = [vec![ring], edges(), small(true)].concat();
    let mut length: usize = lines.iter().map(|line| line.len() + 1).sum();
    for index in 0.. {
        let line = drawn(&mut Rng::new(seed, index));
        length += line.len() + 1;
        if length > bytes {
            break;
        }
        lines.push(line);
    }
    lines
}
