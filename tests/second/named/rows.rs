//! Named cases about single rows: each check of the table alone, at chosen
//! rows, and in its order among the others.

use crate::model::limits::{HEADER, MOST_NODES, NODE_WIDTH};
use crate::model::sheet::*;
use crate::named::checks::{List, GOOD};
use crate::named::sister::*;

pub fn add_all(list: &mut List) {
    node_rows(list);
    node_order(list);
    edge_rows(list);
    edge_ends(list);
    edge_marks(list);
    edge_order(list);
    row_zero(list);
    order_of_node_checks(list);
    order_of_edge_checks(list);
}

fn node_at(row: usize, word: usize) -> usize {
    HEADER + NODE_WIDTH * row + word
}

fn node_rows(list: &mut List) {
    let a = sheet_a();
    for (row, at) in [(0, node_at(0, 0)), (4, node_at(4, 0)), (7, node_at(7, 0))] {
        for sort in [0, 5, 257, u32::MAX] {
            list.changed(&format!("type {sort} at row {row}"), &a, at, sort, (6, row));
        }
        list.changed(&format!("number 0 at row {row}"), &a, at + 1, 0, (7, row));
        for offices in [0, 2, 3, 4, 257, u32::MAX] {
            let name = format!("node offices {offices} of count 1 at row {row}");
            list.changed(&name, &a, at + 3, offices, (8, row));
        }
    }
    for (owner, row) in [("person", 0), ("category", 3), ("folio", 7)] {
        for variant in [1, 0x0100_0000, u32::MAX] {
            let name = format!("variant {variant} on a {owner}");
            list.changed(&name, &a, node_at(row, 2), variant, (7, row as u32));
        }
    }
    let joint = joint_of_a_and_b();
    for offices in [0, 4, 5, 257, u32::MAX] {
        let name = format!("node offices {offices} of count 2");
        list.changed(&name, &joint, node_at(6, 3), offices, (8, 6));
    }
    let folios = [[4, 1, 0, 1], [4, 2, 0, 2], [4, 3, 0, 3]];
    list.sheet("node offices 1, 2 and 3 of count 2", &Sheet::new(2, &folios, &[]), GOOD);
    list.sheet("node offices 2 of count 1", &Sheet::new(1, &folios, &[]), (8, 1));
}

fn nodes_alone(list: &mut List, name: &str, nodes: &[Row], says: (u32, u32)) {
    list.sheet(name, &Sheet::new(2, nodes, &[]), says);
}

fn node_order(list: &mut List) {
    let (p, d, f) = ([1, 5, 0, 1], [3, 5, 5, 1], [4, 5, 0, 1]);
    nodes_alone(list, "node equal at row 1", &[p, p, d, f], (9, 1));
    nodes_alone(list, "node equal at the last row", &[p, d, f, f], (9, 3));
    nodes_alone(list, "deed equal in the middle", &[p, d, d, f], (9, 2));
    nodes_alone(list, "node equal but for its offices", &[p, [1, 5, 0, 2], f], (9, 1));
    nodes_alone(list, "node lower by type at row 1", &[d, p, f], (10, 1));
    nodes_alone(list, "node lower by type at the last row", &[p, f, d], (10, 2));
    nodes_alone(list, "node lower by number at row 1", &[p, [1, 4, 0, 1], f], (10, 1));
    nodes_alone(list, "node lower by number at the last row", &[p, f, [4, 4, 0, 1]], (10, 2));
    nodes_alone(list, "deed lower by variant at row 1", &[d, [3, 5, 4, 1], f], (10, 1));
    nodes_alone(list, "deed lower by variant at the last row", &[p, d, [3, 5, 4, 1]], (10, 2));
    nodes_alone(list, "lower type, higher number", &[d, [2, 9, 0, 1]], (10, 1));
    nodes_alone(list, "lower number, higher variant", &[d, [3, 4, 9, 1]], (10, 1));
    nodes_alone(list, "higher type, lower number", &[p, [2, 1, 0, 1]], GOOD);
    nodes_alone(list, "higher number, lower variant", &[d, [3, 6, 0, 1]], GOOD);
    nodes_alone(list, "lower than the row before the one before", &[p, f, d, p], (10, 2));
    nodes_alone(list, "equal to the row before the one before", &[p, d, p], (10, 2));
    let high = [[1, 0x8000_0000, 0, 1], [1, 0x7FFF_FFFF, 0, 1]];
    nodes_alone(list, "node lower about the sign bit", &high, (10, 1));
}

/// One node of each type, and a second category.
const FIVE: [Row; 5] = [[1, 1, 0, 1], [2, 1, 0, 1], [2, 2, 0, 1], [3, 1, 0, 1], [4, 1, 0, 1]];

fn edges_alone(list: &mut List, name: &str, edges: &[Row], says: (u32, u32)) {
    list.sheet(name, &Sheet::new(1, &FIVE, edges), says);
}

fn edge_rows(list: &mut List) {
    for kind in [0, 6, 257, u32::MAX] {
        edges_alone(list, &format!("edge kind {kind}"), &[[kind, 0, 1, 1]], (11, 0));
    }
    for end in [5, 6, MOST_NODES as u32 - 1, MOST_NODES as u32, 1 << 30, (1 << 30) + 1, u32::MAX] {
        edges_alone(list, &format!("from row {end} of 5"), &[[1, end, 1, 1]], (12, 0));
        edges_alone(list, &format!("to row {end} of 5"), &[[1, 0, end, 1]], (12, 0));
    }
    edges_alone(list, "to the last row of 5", &[[5, 3, 4, 1]], GOOD);
    edges_alone(list, "a category contained in itself", &[[2, 1, 1, 1]], (14, 0));
    edges_alone(list, "in itself at row 1", &[[2, 1, 2, 1], [2, 2, 2, 1]], (14, 1));
    edges_alone(list, "grant and ban of one deed", &[[3, 1, 3, 1], [4, 1, 3, 1]], GOOD);
}

/// Every kind over every pair of types.
fn edge_ends(list: &mut List) {
    let fit = [(1, 1, 2), (2, 2, 2), (3, 2, 3), (4, 2, 3), (5, 3, 4)];
    let from_rows = [(1, 0), (2, 1), (3, 3), (4, 4)];
    let to_rows = [(1, 0), (2, 2), (3, 3), (4, 4)];
    for kind in 1..=5 {
        for (from_sort, from) in from_rows {
            for (to_sort, to) in to_rows {
                let fits = fit.contains(&(kind, from_sort, to_sort));
                let says = if fits { GOOD } else { (13, 0) };
                let name = format!("kind {kind} from type {from_sort} to type {to_sort}");
                edges_alone(list, &name, &[[kind, from, to, 1]], says);
            }
        }
    }
}

fn edge_marks(list: &mut List) {
    for offices in [0, 2, 3, 4, 257, u32::MAX] {
        let name = format!("edge offices {offices} of count 1");
        edges_alone(list, &name, &[[1, 0, 1, offices]], (15, 0));
    }
    let ends = |from, to| [[1, 1, 0, from], [2, 1, 0, to]];
    let marked = |from, to, edge| Sheet::new(2, &ends(from, to), &[[1, 0, 1, edge]]);
    list.sheet("edge marked 3, from end marked 1", &marked(1, 3, 3), (15, 0));
    list.sheet("edge marked 3, to end marked 1", &marked(3, 1, 3), (15, 0));
    let none: &[u32] = &[];
    // Offices of the from end, of the to end, and those an edge may have.
    let allowed = [
        (1, 1, &[1][..]),
        (1, 2, none),
        (1, 3, &[1]),
        (2, 1, none),
        (2, 2, &[2]),
        (2, 3, &[2]),
        (3, 1, &[1]),
        (3, 2, &[2]),
        (3, 3, &[1, 2, 3]),
    ];
    for (from, to, good) in allowed {
        for edge in [0, 1, 2, 3, 4, 5, 7, u32::MAX] {
            let says = if good.contains(&edge) { GOOD } else { (15, 0) };
            let name = format!("edge offices {edge} over ends {from} and {to}");
            list.sheet(&name, &marked(from, to, edge), says);
        }
    }
}

fn edge_order(list: &mut List) {
    let (m, c, g, b) = ([1, 0, 1, 1], [2, 1, 2, 1], [3, 1, 3, 1], [4, 1, 3, 1]);
    edges_alone(list, "edge equal at row 1", &[m, m, c, g], (16, 1));
    edges_alone(list, "edge equal at the last row", &[m, c, g, g], (16, 3));
    edges_alone(list, "edge equal in the middle", &[m, c, c, g], (16, 2));
    edges_alone(list, "edge lower by kind at row 1", &[b, g, m], (17, 1));
    edges_alone(list, "edge lower by kind at the last row", &[m, c, b, g], (17, 3));
    edges_alone(list, "edge lower by from at row 1", &[[3, 2, 3, 1], g, b], (17, 1));
    edges_alone(list, "edge lower by from at the last row", &[m, [2, 2, 1, 1], c], (17, 2));
    edges_alone(list, "edge lower by to at row 1", &[[1, 0, 2, 1], m, b], (17, 1));
    edges_alone(list, "edge lower by to at the last row", &[[1, 0, 2, 1], m], (17, 1));
    edges_alone(list, "lower kind, higher ends", &[g, [2, 2, 1, 1]], (17, 1));
    edges_alone(list, "lower from, higher to", &[[2, 2, 1, 1], c], (17, 1));
    edges_alone(list, "higher from, lower to", &[c, [2, 2, 1, 1]], GOOD);
    edges_alone(list, "higher kind, lower from", &[[3, 2, 3, 1], b], GOOD);
    edges_alone(list, "edge equal to the one before the one before", &[m, c, m], (17, 2));
    let nodes = FIVE.map(|[sort, number, variant, _]| [sort, number, variant, 3]);
    let twins = Sheet::new(2, &nodes, &[[1, 0, 1, 1], [1, 0, 1, 2]]);
    list.sheet("edge equal but for its offices", &twins, (16, 1));
}

/// Nothing comes before row 0, although words do: here they are equal to it,
/// or higher.
fn row_zero(list: &mut List) {
    let nodes = [[3, 1, 6, 1], [4, 1, 0, 1], [4, 2, 0, 1]];
    let equal = Sheet::new(1, &nodes, &[[5, 0, 1, 1]]);
    list.sheet("node row 0 equal to the header words before it", &equal, GOOD);
    let nodes = [[2, 1, 0, 1], [2, 2, 0, 1], [3, 1, 2, 1]];
    let equal = Sheet::new(1, &nodes, &[[3, 1, 2, 1]]);
    list.sheet("edge row 0 equal to the node row before it", &equal, GOOD);
    let lowest = Sheet::new(1, &[[1, 1, 0, 1], [2, 1, 0, 1]], &[[1, 0, 1, 1]]);
    list.sheet("both rows 0 as low as they can be", &lowest, GOOD);
    let highest = Sheet::new(1, &[[4, u32::MAX, 0, 1]], &[]);
    list.sheet("node row 0 as high as it can be", &highest, GOOD);
    edges_alone(list, "edge row 0 of the highest kind", &[[5, 3, 4, 1]], GOOD);
}

fn order_of_node_checks(list: &mut List) {
    let f = [4, 5, 0, 1];
    nodes_alone(list, "type before number", &[f, [5, 0, 0, 0]], (6, 1));
    nodes_alone(list, "number before offices", &[f, [4, 0, 0, 0]], (7, 1));
    nodes_alone(list, "variant before offices", &[f, [1, 5, 1, 4]], (7, 1));
    nodes_alone(list, "variant before order", &[f, [1, 5, 1, 1]], (7, 1));
    nodes_alone(list, "offices before equality", &[f, [4, 5, 0, 0]], (8, 1));
    nodes_alone(list, "offices before order", &[f, [1, 5, 0, 4]], (8, 1));
    let two = [[1, 1, 0, 0], [0, 1, 0, 1]];
    nodes_alone(list, "row 0's offices before row 1's type", &two, (8, 0));
    let late = Sheet::new(1, &[[1, 1, 0, 1], [1, 1, 0, 1]], &[[0, 9, 9, 0]]);
    list.sheet("the last node before the first edge", &late, (9, 1));
}

fn order_of_edge_checks(list: &mut List) {
    let g = [3, 1, 3, 1];
    edges_alone(list, "kind before ends", &[g, [0, 9, 9, 0]], (11, 1));
    edges_alone(list, "ends before their types", &[g, [1, 9, 0, 0]], (12, 1));
    edges_alone(list, "the to end before the from end's type", &[g, [1, 4, 5, 0]], (12, 1));
    edges_alone(list, "types before containment in itself", &[g, [2, 0, 0, 0]], (13, 1));
    edges_alone(list, "types before offices", &[g, [3, 3, 1, 0]], (13, 1));
    edges_alone(list, "containment in itself before offices", &[g, [2, 1, 1, 0]], (14, 1));
    edges_alone(list, "containment in itself before order", &[g, [2, 1, 1, 1]], (14, 1));
    edges_alone(list, "edge offices before equality", &[g, [3, 1, 3, 0]], (15, 1));
    edges_alone(list, "edge offices before order", &[g, [1, 0, 1, 2]], (15, 1));
    let bad = [0, 0, 0, 0];
    edges_alone(list, "row 0's offices before row 1's kind", &[[3, 1, 3, 0], bad], (15, 0));
    edges_alone(list, "row 1's order before row 2's kind", &[g, [1, 0, 1, 1], bad], (17, 1));
}
