//! The import graph of a bundle, as DOT and as SVG.

use bundle_format::Bundle;
use bundle_generate::link::{discover, Discovered};

use crate::card::Card;

/// Reached files and which imports which.
pub struct Graph {
    paths: Vec<String>,
    lists: Vec<Vec<usize>>,
    /// The linked order, or the ring.
    order: Result<Vec<usize>, Vec<usize>>,
    /// Files that nothing reaches.
    unreached: Vec<String>,
}

impl Graph {
    /// The graph of a bundle that passes 1 to 13.
    pub fn of(card: &Card, bundle: &Bundle) -> Option<Graph> {
        let Discovered::Graph {
            paths,
            lists,
            order,
            files,
            ..
        } = discover(&card.bytes)
        else {
            return None;
        };
        let text = |path: &Vec<u8>| String::from_utf8_lossy(path).into_owned();
        let unreached = bundle
            .files
            .iter()
            .enumerate()
            .filter(|(index, _)| !files.contains(index))
            .map(|(_, file)| text(&file.path))
            .collect();
        Some(Graph {
            paths: paths.iter().map(text).collect(),
            lists,
            order,
            unreached,
        })
    }

    fn in_ring(&self, from: usize, to: usize) -> bool {
        let Err(ring) = &self.order else {
            return false;
        };
        (0..ring.len()).any(|at| ring[at] == from && ring[(at + 1) % ring.len()] == to)
    }

    fn is_on_ring(&self, unit: usize) -> bool {
        self.order.as_ref().is_err_and(|ring| ring.contains(&unit))
    }

    pub fn dot(&self) -> String {
        let mut out = String::from("digraph imports {\n    rankdir=LR;\n    node [shape=box];\n");
        for (unit, path) in self.paths.iter().enumerate() {
            let ring = if self.is_on_ring(unit) {
                ", color=red"
            } else {
                ""
            };
            out += &format!(
                "    {unit} [label=\"{unit} {}\"{ring}];\n",
                escape_dot(path)
            );
        }
        for path in &self.unreached {
            out += &format!("    \"{}\" [style=dashed];\n", escape_dot(path));
        }
        for (from, list) in self.lists.iter().enumerate() {
            for &to in list {
                let ring = if self.in_ring(from, to) {
                    " [color=red]"
                } else {
                    ""
                };
                out += &format!("    {from} -> {to}{ring};\n");
            }
        }
        out + "}\n"
    }

    /// The column of each unit: one past the furthest that it is imported from, imports that close a ring left out.
    fn columns(&self) -> Vec<usize> {
        let count = self.paths.len();
        let mut column = vec![0; count];
        for _ in 0..count {
            for (from, list) in self.lists.iter().enumerate() {
                for &to in list {
                    if to != from && !self.closes(from, to) {
                        column[to] = column[to].max(column[from] + 1).min(count - 1);
                    }
                }
            }
        }
        column
    }

    /// Whether an import leads back to the first unit of the ring.
    fn closes(&self, from: usize, to: usize) -> bool {
        match &self.order {
            Err(ring) => to == ring[0] && ring.contains(&from),
            Ok(_) => false,
        }
    }

    pub fn svg(&self) -> String {
        const ROW: usize = 56;
        const HEIGHT: usize = 34;
        const TOP: usize = 36;
        const GAP: usize = 90;
        const LETTER: usize = 8;
        let columns = self.columns();
        let last = columns.iter().copied().max().unwrap_or(0);
        let width_of =
            |path: &String, unit: usize| (path.len() + unit.to_string().len() + 1) * LETTER + 24;
        let widths: Vec<usize> = (0..=last)
            .map(|column| {
                (0..self.paths.len())
                    .filter(|&unit| columns[unit] == column)
                    .map(|unit| width_of(&self.paths[unit], unit))
                    .max()
                    .unwrap_or(0)
            })
            .collect();
        let left = |column: usize| {
            20 + widths[..column]
                .iter()
                .map(|width| width + GAP)
                .sum::<usize>()
        };
        let mut rows = vec![0; last + 1];
        let mut place = Vec::new();
        for &column in &columns {
            place.push((left(column), TOP + rows[column] * ROW));
            rows[column] += 1;
        }
        let tallest = rows.iter().copied().max().unwrap_or(0);
        let bottom = TOP + tallest * ROW;
        let width = left(last) + widths[last] + 60;
        let height = bottom + self.unreached.len() * ROW + 20;
        let mut out = format!(
            "<svg xmlns=\"http://www.w3.org/2000/svg\" width=\"{width}\" height=\"{height}\" viewBox=\"0 0 {width} {height}\" font-family=\"monospace\" font-size=\"13\">\n"
        );
        out += "<defs>";
        for (name, colour) in [("plain", "#445"), ("ring", "#c22")] {
            out += &format!("<marker id=\"{name}\" viewBox=\"0 0 10 10\" refX=\"9\" refY=\"5\" markerWidth=\"8\" markerHeight=\"8\" orient=\"auto\"><path d=\"M0 0L10 5L0 10z\" fill=\"{colour}\"/></marker>");
        }
        out += "</defs>\n<rect width=\"100%\" height=\"100%\" fill=\"white\"/>\n";
        for (from, list) in self.lists.iter().enumerate() {
            for &to in list {
                let (x0, y0) = place[from];
                let (x1, y1) = place[to];
                let (start, end) = (x0 + widths[columns[from]], x1);
                let (y0, y1) = (y0 + HEIGHT / 2, y1 + HEIGHT / 2);
                let (marker, colour) = if self.in_ring(from, to) {
                    ("ring", "#c22")
                } else {
                    ("plain", "#445")
                };
                let path = if from == to {
                    let top = y0 - HEIGHT / 2;
                    format!(
                        "M{} {top}C{} {} {} {} {} {top}",
                        start - 30,
                        start - 30,
                        top.saturating_sub(18),
                        start - 10,
                        top.saturating_sub(18),
                        start - 10
                    )
                } else if columns[to] > columns[from] + 1 {
                    // Past a column: over its boxes.
                    let high = y0.min(y1).saturating_sub(44);
                    format!(
                        "M{start} {y0}C{} {high} {} {high} {end} {y1}",
                        start + 60,
                        end - 60
                    )
                } else if end > start {
                    let middle = (start + end) / 2;
                    format!("M{start} {y0}C{middle} {y0} {middle} {y1} {end} {y1}")
                } else if columns[from] == columns[to] {
                    // Within a column: around its right side.
                    let side = start + 40;
                    format!("M{start} {y0}C{side} {y0} {side} {y1} {start} {y1}")
                } else {
                    // Back to an earlier column: from below to below.
                    let (x0, x1) = (x0 + widths[columns[from]] / 2, x1 + widths[columns[to]] / 2);
                    let (y0, y1) = (y0 + HEIGHT / 2, y1 + HEIGHT / 2);
                    let low = y0.max(y1) + 30;
                    format!("M{x0} {y0}C{x0} {low} {x1} {low} {x1} {y1}")
                };
                out += &format!("<path d=\"{path}\" fill=\"none\" stroke=\"{colour}\" stroke-width=\"1.5\" marker-end=\"url(#{marker})\"/>\n");
            }
        }
        for (unit, path) in self.paths.iter().enumerate() {
            let (x, y) = place[unit];
            let (stroke, fill) = if self.is_on_ring(unit) {
                ("#c22", "#fdeaea")
            } else {
                ("#445", "#eef2fa")
            };
            let label = format!("{unit} {}", escape_xml(path));
            out += &box_of(
                x,
                y,
                widths[columns[unit]],
                HEIGHT,
                stroke,
                fill,
                "",
                &label,
            );
        }
        for (index, path) in self.unreached.iter().enumerate() {
            let y = bottom + index * ROW;
            let dashed = " stroke-dasharray=\"4 3\"";
            let label = format!("{} (not reached)", escape_xml(path));
            let width = label.len() * LETTER + 24;
            out += &box_of(20, y, width, HEIGHT, "#888", "white", dashed, &label);
        }
        out + "</svg>\n"
    }
}

#[allow(clippy::too_many_arguments)]
fn box_of(
    x: usize,
    y: usize,
    width: usize,
    height: usize,
    stroke: &str,
    fill: &str,
    dashed: &str,
    label: &str,
) -> String {
    format!(
        "<rect x=\"{x}\" y=\"{y}\" width=\"{width}\" height=\"{height}\" rx=\"4\" fill=\"{fill}\" stroke=\"{stroke}\"{dashed}/><text x=\"{}\" y=\"{}\">{label}</text>\n",
        x + 12,
        y + height / 2 + 5
    )
}

fn escape_dot(text: &str) -> String {
    text.replace('\\', "\\\\").replace('"', "\\\"")
}

fn escape_xml(text: &str) -> String {
    text.replace('&', "&amp;")
        .replace('<', "&lt;")
        .replace('>', "&gt;")
}
