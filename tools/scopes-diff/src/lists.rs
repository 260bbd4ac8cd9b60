//! Lists of calls, drawn. Each next call is chosen knowing what the original answered before, so
//! that most uses find something; a share is aimed at refusals.

use bundle_format::limits;
use bundle_generate::Rng;
use oracle::ast::scope::Tree;
use oracle::tree;

use crate::calls::{form, Call, Element};
use crate::cover::Cover;
use crate::register::{Register, View, MODULE};

/// A list of calls with the original's answers, and the tree that it left.
pub struct List {
    pub calls: Vec<Call>,
    pub answers: Vec<String>,
    pub written: String,
    pub cover: Cover,
}

struct Family {
    name: &'static str,
    /// How many lists of ten thousand are of it.
    weight: usize,
    make: fn(&mut Session),
}

const FAMILIES: [Family; 6] = [
    Family {
        name: "mixed",
        weight: 2_600,
        make: Session::mixed,
    },
    Family {
        name: "guided",
        weight: 5_000,
        make: Session::guided,
    },
    Family {
        name: "chain",
        weight: 1_000,
        make: Session::chain,
    },
    Family {
        name: "ancestors",
        weight: 900,
        make: Session::ancestors,
    },
    Family {
        name: "full by uses",
        weight: 490,
        make: Session::full_by_uses,
    },
    Family {
        name: "full by declarations",
        weight: 10,
        make: Session::full_by_declarations,
    },
];

pub fn family_names() -> impl Iterator<Item = &'static str> {
    FAMILIES.iter().map(|family| family.name)
}

/// The list `index` of a seed, which does not depend on those before it; and its family.
pub fn list(seed: u64, index: u64) -> (List, usize) {
    let mut session = Session::new(Rng::new(seed, index));
    let weights = FAMILIES.iter().map(|family| family.weight);
    let family = session.rng.weighted(weights);
    (FAMILIES[family].make)(&mut session);
    (session.end(), family)
}

const NAMES: [&str; 8] = [
    "a",
    "b",
    "c",
    "d",
    "m",
    "f",
    "main",
    "longer_than_eight_bytes_of_text",
];
/// The second has 32 bytes and is a name; the others are none.
const ODD: [&str; 6] = [
    "1a",
    "this_name_has_exactly_32_bytes__",
    "a-b",
    "this_name_has_more_than_32_bytes_in_it",
    "",
    "\u{e4}",
];

struct Session {
    rng: Rng,
    tree: Tree,
    register: Register,
    /// How many entries the original may still copy.
    budget: usize,
    fresh: usize,
    calls: Vec<Call>,
    answers: Vec<String>,
    cover: Cover,
}

impl Session {
    fn new(mut rng: Rng) -> Self {
        let budget = match rng.below(1000) {
            0..=899 => 600,
            900..=989 => 6_000,
            990..=998 => 60_000,
            _ => 400_000,
        };
        Session {
            rng,
            tree: Tree::default(),
            register: Register::default(),
            budget,
            fresh: 0,
            calls: Vec::new(),
            answers: Vec::new(),
            cover: Cover::default(),
        }
    }

    fn end(self) -> List {
        List {
            calls: self.calls,
            answers: self.answers,
            written: self.tree.write(),
            cover: self.cover,
        }
    }

    /// Makes a call on the original; says whether it was accepted.
    fn ask(&mut self, call: Call) -> bool {
        let answer = tree::answer(&mut self.tree, &call.line()).expect("a line of `--tree`");
        let accepted = answer.starts_with("ok");
        self.cover.call(&call, &answer);
        if accepted {
            let imported = self.register.accept(&call);
            self.cover.imported(&imported);
        }
        self.cover.tree(&self.register);
        self.answers.push(answer);
        self.calls.push(call);
        accepted
    }

    fn mark(&self) -> u16 {
        self.calls.len() as u16
    }

    fn name(&mut self) -> String {
        match self.rng.below(100) {
            0 => self.rng.pick(&ODD).to_string(),
            1..=25 => self.fresh(),
            _ => self.rng.pick(&NAMES).to_string(),
        }
    }

    fn fresh(&mut self) -> String {
        self.fresh += 1;
        format!("x{}", self.fresh)
    }

    fn declare(&mut self, name: String, public: usize) {
        let (visible, mark) = (self.rng.chance(public), self.mark());
        let call = match self.rng.below(7) {
            0..=1 => Call::Alias(name, visible, mark),
            2 => Call::Enum(name, visible, mark),
            _ => Call::Function(name, visible, mark),
        };
        self.ask(call);
    }

    fn get(&mut self, name: String) {
        // Mostly of an entry of the current module.
        let here = View {
            scope: self.register.here(),
            time: self.register.entries.len(),
        };
        let held: Vec<usize> = self.register.held(here).collect();
        let name = match !held.is_empty() && self.rng.chance(70) {
            true => self.register.entries[*self.rng.pick(&held)].name.clone(),
            false => name,
        };
        let call = match self.rng.below(2) {
            0 => Call::GetAlias(name),
            _ => Call::GetFunction(name),
        };
        self.ask(call);
    }

    /// A use, unless the original would have to copy too much for it.
    fn import(&mut self, visible: bool, path: Vec<String>, elements: Vec<Element>) -> bool {
        let cost = self.register.cost(&path, &elements);
        if cost > self.budget {
            let name = self.name();
            self.get(name);
            return false;
        }
        self.budget -= cost;
        self.ask(Call::Use(visible, path, elements))
    }

    /// The names of the open modules, the first `count` of them.
    fn open_names(&self, count: usize) -> impl Iterator<Item = String> + '_ {
        let open = self.register.open[..count].iter();
        open.map(|&at| self.register.entries[at].name.clone())
    }

    /// A walk through modules, copies among them, from the root or along the open path.
    fn drawn_path(&mut self) -> Vec<String> {
        let mut path = vec!["crate".to_string()];
        let depth = self.register.open.len();
        if self.rng.chance(25) {
            let count = self.rng.below(depth + 1);
            path.extend(self.open_names(count));
        }
        let stop = *self.rng.pick(&[8, 15, 30, 60]);
        while path.len() < 19 && !self.rng.chance(stop) {
            let Some((view, _)) = self.register.module(&path[1..]) else {
                break;
            };
            let modules: Vec<usize> = self
                .register
                .held(view)
                .filter(|&at| self.register.entries[at].kind == MODULE)
                .collect();
            if modules.is_empty() {
                break;
            }
            // The last ones are copies more often.
            let at = match self.rng.chance(40) {
                true => modules[modules.len() - 1],
                false => *self.rng.pick(&modules),
            };
            path.push(self.register.entries[at].name.clone());
        }
        // Not to an empty module, mostly.
        while path.len() > 1 && self.rng.chance(80) {
            let view = self.register.module(&path[1..]);
            if view.is_some_and(|(view, _)| self.register.held(view).next().is_some()) {
                break;
            }
            path.pop();
        }
        path
    }

    fn drawn_elements(&mut self, view: Option<View>) -> Vec<Element> {
        let count = match self.rng.below(200) {
            0 => 33,
            1..=4 => 0,
            5..=12 => self.rng.between(5, 32),
            13..=70 => self.rng.between(2, 4),
            _ => 1,
        };
        let held: Vec<usize> = view
            .map(|view| self.register.held(view).collect())
            .unwrap_or_default();
        let mut elements = Vec::new();
        for _ in 0..count {
            let name = if held.is_empty() || self.rng.chance(6) {
                self.name()
            } else {
                let mut at = *self.rng.pick(&held);
                for _ in 0..3 {
                    let entry = &self.register.entries[at];
                    if !entry.public || (entry.kind != MODULE && self.rng.chance(30)) {
                        at = *self.rng.pick(&held);
                    }
                }
                self.register.entries[at].name.clone()
            };
            let alias = match self.rng.below(100) {
                0 => "main".to_string(),
                1..=55 => self.fresh(),
                56..=75 => self.name(),
                _ => String::new(),
            };
            elements.push((name, alias));
        }
        elements
    }

    fn drawn_use(&mut self, public: usize) {
        let mut path = self.drawn_path();
        match self.rng.below(60) {
            0 => path.clear(),
            1 => path[0] = "a".to_string(),
            2 => path.push(self.rng.pick(&NAMES).to_string()),
            3 => path.push("missing".to_string()),
            4 if path.len() > 1 => {
                let at = self.rng.between(1, path.len() - 1);
                path[at] = self.name();
            }
            5 => {
                let count = self.rng.between(12, 18);
                path.resize_with(count.max(path.len()), || "a".to_string());
            }
            _ => {}
        }
        let view = self.register.module(path.get(1..).unwrap_or_default());
        let elements = self.drawn_elements(view.map(|(view, _)| view));
        let visible = self.rng.chance(public);
        if self.rng.chance(4) {
            self.damaged_use(visible, &path, &elements);
        } else {
            self.import(visible, path, elements);
        }
    }

    /// A use's bytes, cut, lengthened or changed.
    fn damaged_use(&mut self, visible: bool, path: &[String], elements: &[Element]) {
        let mut bytes = form(path, elements);
        for _ in 0..self.rng.between(1, 2) {
            let at = self.rng.below(bytes.len() + 1);
            let byte = *self.rng.pick(b"\x00\x01\x02\x11\x12\x20\x21\xffaA_0-");
            match self.rng.below(4) {
                0 => bytes.truncate(at),
                1 => bytes.insert(at, byte),
                2 => bytes.push(byte),
                _ if at < bytes.len() => bytes[at] = byte,
                _ => {}
            }
        }
        let cost = match crate::calls::read_form(&bytes) {
            Some((path, elements)) => self.register.cost(&path, &elements),
            None => 0,
        };
        if cost <= self.budget {
            self.budget -= cost;
            self.ask(Call::Form(visible, bytes));
        }
    }

    /// A module around the place of the use: its copy shows it as it is now.
    fn use_of_ancestor(&mut self, public: usize) {
        let depth = self.register.open.len();
        if depth == 0 {
            return self.drawn_use(public);
        }
        let which = self.rng.below(depth);
        let mut path = vec!["crate".to_string()];
        path.extend(self.open_names(which));
        let name = self.register.entries[self.register.open[which]]
            .name
            .clone();
        let alias = match self.rng.chance(85) {
            true => self.fresh(),
            false => self.name(),
        };
        let visible = self.rng.chance(public);
        self.import(visible, path, vec![(name, alias)]);
    }

    /// Calls by chance, with few names.
    fn mixed(&mut self) {
        let calls = *self.rng.pick(&[6, 20, 40]);
        for _ in 0..calls {
            let (name, visible, mark) = (
                self.rng.pick(&NAMES).to_string(),
                self.rng.chance(70),
                self.mark(),
            );
            match self.rng.below(30) {
                0..=6 => {
                    self.ask(Call::Enter(name, visible, mark));
                }
                7..=10 => {
                    self.ask(Call::Exit);
                }
                11..=17 => self.declare(name, 70),
                18..=19 => self.get(name),
                _ => {
                    let mut path = vec!["crate".to_string()];
                    while self.rng.chance(55) {
                        path.push(self.rng.pick(&NAMES).to_string());
                    }
                    let count = 1 + self.rng.below(3);
                    let elements = (0..count)
                        .map(|_| {
                            let name = self.rng.pick(&NAMES).to_string();
                            let alias = match self.rng.chance(50) {
                                true => self.rng.pick(&NAMES).to_string(),
                                false => String::new(),
                            };
                            (name, alias)
                        })
                        .collect();
                    self.import(visible, path, elements);
                }
            }
        }
    }

    /// Nested modules, re-exports, copies of copies; the weights differ from list to list.
    fn guided(&mut self) {
        let calls = *self.rng.pick(&[10, 25, 25, 40, 60]);
        let public = *self.rng.pick(&[50, 80, 95]);
        let weights = [
            self.rng.between(2, 8),
            self.rng.between(1, 5),
            self.rng.between(1, 6),
            self.rng.between(0, 2),
            self.rng.between(4, 14),
            self.rng.between(0, 4),
        ];
        for _ in 0..calls {
            match self.rng.weighted(weights.iter().copied()) {
                0 => {
                    let (name, visible, mark) = (self.name(), self.rng.chance(public), self.mark());
                    self.ask(Call::Enter(name, visible, mark));
                }
                1 => {
                    self.ask(Call::Exit);
                }
                2 => {
                    let name = self.name();
                    self.declare(name, public);
                }
                3 => {
                    let name = self.name();
                    self.get(name);
                }
                4 => self.drawn_use(public),
                _ => self.use_of_ancestor(public),
            }
        }
    }

    /// Each module imports the one before it, so that copies stand in copies in copies, deeper
    /// than a path may reach; then uses through them.
    fn chain(&mut self) {
        let links = self.rng.between(3, 22);
        let public = *self.rng.pick(&[80, 100]);
        let inner = self.rng.between(1, 3);
        self.budget = self.budget.max(3_000);
        let mut before: Option<String> = None;
        for _ in 0..links {
            let (name, visible, mark) = (self.fresh(), self.rng.chance(public), self.mark());
            self.ask(Call::Enter(name.clone(), visible, mark));
            for _ in 0..self.rng.below(inner + 1) {
                let name = self.rng.pick(&NAMES).to_string();
                self.declare(name, public);
            }
            if let Some(before) = before {
                let alias = match self.rng.below(3) {
                    0 => String::new(),
                    _ => self.rng.pick(&["p", "q"]).to_string(),
                };
                let path = vec!["crate".to_string()];
                self.import(
                    !self.register.entries.len().is_multiple_of(9),
                    path,
                    vec![(before, alias)],
                );
            }
            // Sometimes the next module stands inside this one.
            if self.rng.chance(85) || self.register.open.len() == limits::OPEN {
                self.ask(Call::Exit);
            }
            before = Some(name);
        }
        for _ in 0..self.rng.between(4, 12) {
            self.drawn_use(public);
        }
    }

    /// Uses of modules around them, which double the tree, with entries made in between.
    fn ancestors(&mut self) {
        let public = *self.rng.pick(&[85, 100]);
        let depth = self.rng.between(1, 9);
        self.budget = self.budget.max(3_000);
        for _ in 0..depth {
            let (name, visible, mark) = (self.name(), self.rng.chance(public), self.mark());
            self.ask(Call::Enter(name, visible, mark));
            if self.rng.chance(40) {
                let name = self.name();
                self.declare(name, public);
            }
        }
        for _ in 0..self.rng.between(6, 20) {
            match self.rng.below(10) {
                0..=3 => self.use_of_ancestor(public),
                4..=6 => self.drawn_use(public),
                7 => {
                    let name = self.name();
                    self.declare(name, public);
                }
                8 => {
                    self.ask(Call::Exit);
                }
                _ => {
                    let (name, visible, mark) = (self.name(), true, self.mark());
                    self.ask(Call::Enter(name, visible, mark));
                }
            }
        }
    }

    /// Up to 1,024 entries by uses of elements of all three kinds, and on to the limit by ones.
    fn full_by_uses(&mut self) {
        self.budget = self.budget.max(30_000);
        let inner = self.rng.below(4);
        self.ask(Call::Enter("a".to_string(), true, 1));
        self.ask(Call::Alias("all".to_string(), true, 2));
        self.ask(Call::Function("all".to_string(), true, 3));
        self.ask(Call::Enum("ty".to_string(), true, 4));
        self.ask(Call::Function("fun".to_string(), true, 5));
        self.ask(Call::Enter("all".to_string(), true, 6));
        for _ in 0..inner {
            let name = self.fresh();
            self.declare(name, 80);
        }
        self.ask(Call::Exit);
        self.ask(Call::Exit);
        // Full inside a module or at the root.
        for _ in 0..*self.rng.pick(&[0, 0, 1, 3, 8, 9]) {
            let (name, mark) = (self.fresh(), self.mark());
            self.ask(Call::Enter(name, true, mark));
        }
        let path = || vec!["crate".to_string(), "a".to_string()];
        while self.register.entries.len() + 96 <= limits::ENTRIES {
            if self.rng.chance(6) {
                let name = self.fresh();
                self.declare(name, 80);
            }
            let elements = (0..self.rng.between(28, 32))
                .map(|_| ("all".to_string(), self.fresh()))
                .collect();
            if !self.import(true, path(), elements) {
                break;
            }
        }
        for _ in 0..self.rng.between(6, 16) {
            let left = limits::ENTRIES - self.register.entries.len();
            match self.rng.below(12) {
                // As many entries as are left, or one more.
                0..=4 => {
                    let wanted = (left + self.rng.below(2)).min(96);
                    let mut elements = Vec::new();
                    let mut count = 0;
                    while count < wanted && elements.len() < 32 {
                        let (name, makes) = match wanted - count >= 3 {
                            true => ("all", 3),
                            false => (*self.rng.pick(&["ty", "fun"]), 1),
                        };
                        elements.push((name.to_string(), self.fresh()));
                        count += makes;
                    }
                    let visible = self.rng.chance(80);
                    self.import(visible, path(), elements);
                }
                5 => {
                    let name = self.fresh();
                    self.declare(name, 80);
                }
                6 => {
                    let name = format!("x{}", self.rng.between(1, self.fresh.max(1)));
                    self.declare(name, 80);
                }
                7 => {
                    let (name, mark) = (self.fresh(), self.mark());
                    self.ask(Call::Enter(name, true, mark));
                }
                8 => {
                    self.ask(Call::Exit);
                }
                9 => {
                    let name = format!("x{}", self.rng.between(1, self.fresh.max(1)));
                    self.get(name);
                }
                10 => self.use_of_ancestor(90),
                _ => self.drawn_use(80),
            }
        }
    }

    /// A tree near 1,024 entries by declarations, then uses of up to 32 elements.
    fn full_by_declarations(&mut self) {
        self.budget = self.budget.max(30_000);
        self.ask(Call::Enter("a".to_string(), true, 0));
        let many = 20 + self.rng.below(12);
        for i in 0..many {
            self.ask(Call::Function(format!("e{i}"), true, i as u16));
        }
        self.ask(Call::Exit);
        let rest = limits::ENTRIES - many - 1 - self.rng.below(40);
        for i in 0..rest {
            let visible = self.rng.chance(50);
            self.ask(Call::Alias(format!("t{i}"), visible, i as u16));
        }
        for _ in 0..12 {
            let elements = (0..1 + self.rng.below(32))
                .map(|_| {
                    (
                        format!("e{}", self.rng.below(many + 1)),
                        format!("u{}", self.rng.below(200)),
                    )
                })
                .collect();
            self.import(true, vec!["crate".to_string(), "a".to_string()], elements);
            let name = self.name();
            self.ask(Call::Enter(name, true, 7));
            let name = self.name();
            self.ask(Call::Enum(name, true, 8));
        }
        for _ in 0..10 {
            self.ask(Call::Enter("deep".to_string(), true, 9));
        }
    }
}
