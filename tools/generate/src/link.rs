//! A whole run by docs/SPECIFICATION.md, over the format library. The generator keeps its bundles small
//! with it, and its answers can be compared with the oracle's.

use bundle_format::{image, Body, Bundle, Item, Refusal};

use crate::lookup::Lookup;
use crate::tree::{unit_name, Tree, TOO_LARGE};

/// What comes of a bundle.
pub struct Run {
    /// What the printing program prints.
    pub text: String,
    /// The image of a bundle that links.
    pub image: Option<Vec<u8>>,
    /// The number of entries of the tree written out.
    pub written: usize,
    /// The tree written out would have passed the number given.
    pub too_large: bool,
}

/// The run of a bundle whose tree may have up to `largest` entries written out.
pub fn run(bytes: &[u8], largest: usize) -> Run {
    let mut tree = Tree::new(largest);
    let answer = match Bundle::decode(bytes) {
        Err(refusal) => Err(Stop::Refusal(refusal)),
        Ok(bundle) => match bundle.check() {
            Some(refusal) => Err(Stop::Refusal(refusal)),
            None => Linker::new(&bundle).run(&mut tree),
        },
    };
    let (text, image, too_large) = match answer {
        Ok((text, image)) => (text, Some(image), false),
        Err(Stop::Report(text)) => (text, None, false),
        Err(Stop::Refusal(refusal)) => (format!("{refusal}\n"), None, refusal.number == TOO_LARGE),
    };
    Run {
        text,
        image,
        written: tree.written(),
        too_large,
    }
}

/// The files of the units by id, the ids in linked order, and the image.
pub type Assembled = (Vec<usize>, Vec<usize>, Vec<u8>);

/// Steps 1 to 5 and the image, without step 6: the report's lines, or the units in linked order and
/// the image; 15 where it is too long.
pub fn assemble(bytes: &[u8]) -> Result<Assembled, String> {
    let bundle = Bundle::decode(bytes).map_err(|refusal| format!("{refusal}\n"))?;
    if let Some(refusal) = bundle.check() {
        return Err(format!("{refusal}\n"));
    }
    let mut linker = Linker::new(&bundle);
    let stopped = |stop| match stop {
        Stop::Report(text) => text,
        Stop::Refusal(refusal) => format!("{refusal}\n"),
    };
    let (order, _, units) = linker.assemble().map_err(stopped)?;
    let image = written(&units).map_err(stopped)?;
    Ok((linker.units, order, image))
}

/// What steps 3 and 4 make of a bundle.
#[derive(Clone, Debug, PartialEq, Eq)]
pub enum Discovered {
    /// 1 to 13.
    Refused(Refusal),
    Graph {
        /// 20 to 25, in the order of the pushes, each as a line.
        faults: String,
        /// Each unit's place among the bundle's files.
        files: Vec<usize>,
        paths: Vec<Vec<u8>>,
        /// The ids that each unit lists.
        lists: Vec<Vec<usize>>,
        /// The linked order, or a ring; of no meaning where there are faults.
        order: Result<Vec<usize>, Vec<usize>>,
    },
}

pub fn discover(bytes: &[u8]) -> Discovered {
    let bundle = match Bundle::decode(bytes) {
        Err(refusal) => return Discovered::Refused(refusal),
        Ok(bundle) => bundle,
    };
    if let Some(refusal) = bundle.check() {
        return Discovered::Refused(refusal);
    }
    let mut linker = Linker::new(&bundle);
    linker.discover();
    let mut order = Vec::new();
    let walked = linker.order(0, &mut Vec::new(), &mut order);
    let path = |file: &usize| bundle.files[*file].path.clone();
    Discovered::Graph {
        faults: linker.report,
        paths: linker.units.iter().map(path).collect(),
        files: linker.units,
        lists: linker.dependencies,
        order: walked.map(|()| order),
    }
}

impl Discovered {
    /// As `oracle --discover` prints it.
    pub fn print(&self) -> String {
        let words = |ids: &[usize]| -> String { ids.iter().map(|id| format!(" {id}")).collect() };
        match self {
            Discovered::Refused(refusal) => format!("{refusal}\n"),
            Discovered::Graph { faults, .. } if !faults.is_empty() => faults.clone(),
            Discovered::Graph {
                paths,
                lists,
                order,
                ..
            } => {
                let mut out = String::new();
                for (id, (path, list)) in paths.iter().zip(lists).enumerate() {
                    let path = String::from_utf8_lossy(path);
                    out += &format!("unit {id} {path}{}\n", words(list));
                }
                match order {
                    Ok(order) => out += &format!("order{}\n", words(order)),
                    Err(ring) => out += &format!("ring{}\n", words(ring)),
                }
                out
            }
        }
    }
}

enum Stop {
    Report(String),
    Refusal(Refusal),
}

struct Linker<'a> {
    lookup: Lookup<'a>,
    /// The file of each unit.
    units: Vec<usize>,
    /// The units that each unit imports.
    dependencies: Vec<Vec<usize>>,
    /// For each use the unit and the module path, by mark.
    targets: std::collections::HashMap<usize, (usize, usize)>,
    report: String,
}

fn uses<'a>(items: &'a [Item], found: &mut Vec<(usize, &'a [Vec<u8>])>) {
    for item in items {
        match &item.body {
            Body::Use { segments, .. } => found.push((item.mark, segments)),
            Body::Module { items, .. } => uses(items, found),
            _ => {}
        }
    }
}

fn enums(items: &[Item], report: &mut String) {
    for item in items {
        match &item.body {
            Body::Enum(_) => *report += &format!("no 28 {}\n", item.mark),
            Body::Module { items, .. } => enums(items, report),
            _ => {}
        }
    }
}

impl<'a> Linker<'a> {
    fn new(bundle: &'a Bundle) -> Self {
        Linker {
            lookup: Lookup::new(bundle),
            units: vec![0],
            dependencies: Vec::new(),
            targets: std::collections::HashMap::new(),
            report: String::new(),
        }
    }

    fn items(&self, unit: usize) -> &'a [Item] {
        &self.lookup.bundle.files[self.units[unit]].items
    }

    fn run(mut self, tree: &mut Tree) -> Result<(String, Vec<u8>), Stop> {
        let (_, mut text, units) = self.assemble()?;
        walk(&units, tree)?;
        let image = written(&units)?;
        tree.print(&mut text);
        Ok((text, image))
    }

    /// Steps 3 to 5: the linked order, its printed lines, and the units.
    fn assemble(&mut self) -> Result<(Vec<usize>, String, Vec<Item>), Stop> {
        self.discover();
        self.stop_if_reported()?;

        let mut order = Vec::new();
        if let Err(ring) = self.order(0, &mut Vec::new(), &mut order) {
            let ids: String = ring.iter().map(|id| format!(" {id}")).collect();
            return Err(Stop::Report(format!("no 26 0\nring{ids}\n")));
        }

        for &unit in &order {
            if unit != 0 {
                enums(self.items(unit), &mut self.report);
            }
        }
        let is_main = |item: &Item| matches!(&item.body, Body::Function(name) if name == b"main");
        if !self.items(0).iter().any(is_main) {
            self.report += "no 27 0\n";
        }
        self.stop_if_reported()?;

        let mut text = format!("ok {}\n", order.len());
        let mut units = Vec::new();
        for &unit in &order {
            let path = &self.lookup.bundle.files[self.units[unit]].path;
            text += &format!("unit {unit} {}\n", String::from_utf8_lossy(path));
            units.push(Item {
                mark: 0,
                public: false,
                body: Body::Module {
                    name: unit_name(unit),
                    items: self.rewrite(self.items(unit)),
                },
            });
        }
        Ok((order, text, units))
    }

    fn stop_if_reported(&mut self) -> Result<(), Stop> {
        if self.report.is_empty() {
            return Ok(());
        }
        Err(Stop::Report(std::mem::take(&mut self.report)))
    }

    fn discover(&mut self) {
        let mut unreadable: Vec<Vec<u8>> = Vec::new();
        let mut unit = 0;
        while unit < self.units.len() {
            self.dependencies.push(Vec::new());
            let importer = &self.lookup.bundle.files[self.units[unit]].path;
            let mut found = Vec::new();
            uses(self.items(unit), &mut found);

            let mut resolved = Vec::new();
            for (mark, segments) in found {
                match self.lookup.resolve(importer, segments) {
                    Ok(found) => resolved.push((mark, found)),
                    Err(number) => self.report += &format!("no {number} {mark}\n"),
                }
            }
            for (mark, found) in resolved {
                let Some(file) = self.lookup.file(&found.path) else {
                    if !unreadable.contains(&found.path) {
                        self.report += &format!("no 23 {mark}\n");
                        unreadable.push(found.path);
                    }
                    continue;
                };
                let id = match self.units.iter().position(|&known| known == file) {
                    Some(id) => id,
                    None => {
                        self.units.push(file);
                        self.units.len() - 1
                    }
                };
                if !self.dependencies[unit].contains(&id) {
                    self.dependencies[unit].push(id);
                }
                self.targets.insert(mark, (id, found.rest));
            }
            unit += 1;
        }
    }

    /// Depth first; a unit met again on the walk closes a ring.
    fn order(
        &self,
        unit: usize,
        walk: &mut Vec<usize>,
        order: &mut Vec<usize>,
    ) -> Result<(), Vec<usize>> {
        if order.contains(&unit) {
            return Ok(());
        }
        if let Some(start) = walk.iter().position(|&before| before == unit) {
            return Err(walk[start..].to_vec());
        }
        walk.push(unit);
        for &dependency in &self.dependencies[unit] {
            if dependency != unit {
                self.order(dependency, walk, order)?;
            }
        }
        walk.pop();
        order.push(unit);
        Ok(())
    }

    fn rewrite(&self, items: &[Item]) -> Vec<Item> {
        let rewritten = items.iter().filter_map(|item| {
            let body = match &item.body {
                Body::Ignored => return None,
                Body::Use { segments, elements } => {
                    let (unit, rest) = self.targets[&item.mark];
                    let mut path = vec![b"crate".to_vec(), unit_name(unit)];
                    path.extend_from_slice(&segments[rest..]);
                    Body::Use {
                        segments: path,
                        elements: elements.clone(),
                    }
                }
                Body::Module { name, items } => Body::Module {
                    name: name.clone(),
                    items: self.rewrite(items),
                },
                body => body.clone(),
            };
            Some(Item {
                mark: item.mark,
                public: item.public,
                body,
            })
        });
        rewritten.collect()
    }
}

/// The image, or 15: names and counts fit, so an error is about a length.
fn written(units: &[Item]) -> Result<Vec<u8>, Stop> {
    image(units).map_err(|_| {
        Stop::Refusal(Refusal {
            number: 15,
            place: 0,
        })
    })
}

/// Step 6 over rewritten items.
fn walk(items: &[Item], tree: &mut Tree) -> Result<(), Stop> {
    for item in items {
        let Item { mark, public, body } = item;
        let result = match body {
            Body::TypeAlias(name) | Body::Enum(name) => tree.insert_type(name, *public, *mark),
            Body::Function(name) => tree.insert_function(name, *public, *mark),
            Body::Use { segments, elements } => tree.import(&segments[1..], elements, *public),
            Body::Module { name, .. } => tree.enter(name, *public, *mark),
            Body::Ignored => Ok(()),
        };
        let place = *mark;
        result.map_err(|number| Stop::Refusal(Refusal { number, place }))?;
        if let Body::Module { items, .. } = body {
            walk(items, tree)?;
            tree.exit();
        }
    }
    Ok(())
}
