//! The marked cases of document 01 on the crate with the stand-ins for its two dependencies.

use aig::{Aig, AigEdge};
use logicrs::{Lbool, Var};
use std::collections::BTreeSet;

fn edge(code: usize) -> AigEdge {
    AigEdge::new(code / 2, code % 2 == 1)
}

fn code(edge: AigEdge) -> usize {
    2 * edge.node_id() + usize::from(edge.compl())
}

fn leaves(count: usize) -> Aig {
    let mut aig = Aig::new();
    for _ in 0..count {
        aig.new_input();
    }
    aig
}

fn with_gates(mut aig: Aig, gates: &[(usize, usize)]) -> Aig {
    for &(a, b) in gates {
        aig.trivial_new_and_node(edge(a), edge(b));
    }
    let last = aig.num_nodes() - 1;
    aig.outputs.push(edge(2 * last));
    aig
}

fn table_x() -> Aig {
    with_gates(leaves(2), &[(2, 4), (3, 5), (7, 9)])
}

/// The clauses of a variable as sets of literals; "literal codes are edge codes".
fn clauses(aig: &Aig, shortcuts: bool, var: usize) -> BTreeSet<BTreeSet<usize>> {
    let cnf = aig.cnf(shortcuts);
    let clauses = cnf.clauses(Var::new(var)).iter();
    let codes = clauses.map(|clause| clause.iter().map(|&lit| code(AigEdge::from_lit(lit))));
    codes.map(BTreeSet::from_iter).collect()
}

fn sets<const N: usize>(clauses: [&[usize]; N]) -> BTreeSet<BTreeSet<usize>> {
    let clauses = clauses.into_iter();
    clauses
        .map(|clause| clause.iter().copied().collect())
        .collect()
}

#[test]
fn m1_to_m4_and_m6_fold() {
    let mut aig = leaves(2);
    assert_eq!(code(aig.new_and_node(edge(2), edge(2))), 2);
    assert_eq!(code(aig.new_and_node(edge(2), edge(3))), 0);
    assert_eq!(code(aig.new_and_node(edge(1), edge(5))), 5);
    assert_eq!(code(aig.new_and_node(edge(0), edge(5))), 0);
    assert_eq!(code(aig.new_eq_node(edge(2), edge(2))), 1);
    assert_eq!(aig.num_nodes(), 3);
}

#[test]
fn m5_adds_rows() {
    let mut aig = leaves(2);
    assert_eq!(code(aig.new_and_node(edge(4), edge(2))), 6);
    assert_eq!(aig[3].fanin(), (edge(2), edge(4)));
    let mut aig = leaves(2);
    assert_eq!(code(aig.new_eq_node(edge(2), edge(4))), 11);
    let x = table_x();
    assert!((3..6).all(|row| aig[row].fanin() == x[row].fanin()));
}

#[test]
fn m7_stays_unknown() {
    let aig = with_gates(leaves(1), &[(2, 3)]);
    let values = aig.ternary_simulate(&[Lbool::UNKNOWN], &[]);
    assert_eq!(values, [Lbool::FALSE, Lbool::UNKNOWN, Lbool::UNKNOWN]);
}

#[test]
fn m8_is_an_exclusive_or() {
    let x = table_x();
    let xor = sets([&[11, 2, 4], &[11, 3, 5], &[10, 3, 4], &[10, 2, 5]]);
    assert_eq!(clauses(&x, true, 5), xor);
    assert!((0..5).all(|var| clauses(&x, true, var).is_empty()));
}

#[test]
fn m9_is_plain() {
    let x = table_x();
    assert_eq!(
        clauses(&x, false, 5),
        sets([&[11, 7], &[11, 9], &[10, 6, 8]])
    );
    assert_eq!(clauses(&x, false, 4), sets([&[9, 3], &[9, 5], &[8, 2, 4]]));
    assert_eq!(clauses(&x, false, 3), sets([&[7, 2], &[7, 4], &[6, 3, 5]]));
}

#[test]
fn m10_is_an_if_then_else() {
    let aig = with_gates(leaves(3), &[(2, 5), (3, 7), (9, 11)]);
    let ite = sets([&[13, 3, 4], &[13, 2, 6], &[12, 3, 5], &[12, 2, 7]]);
    assert_eq!(clauses(&aig, true, 6), ite);
}

#[test]
fn m11_has_no_clause_but_the_unit_that_the_crate_does_not_add() {
    assert!(clauses(&Aig::new(), true, 0).is_empty());
}

/// "M12 reencode [..] gives latch (2, 2, 3); the Rust has init 5."
#[test]
fn m12_keeps_init_in_the_rust() {
    let mut aig = Aig::new();
    aig.new_leaf_node();
    aig.new_leaf_node();
    aig.add_input(2);
    aig.add_latch(1, edge(4), Some(edge(5)));
    let latch = aig.reencode().latchs[0];
    assert_eq!(
        (latch.input, latch.next, latch.init),
        (2, edge(2), Some(edge(5)))
    );
}

#[test]
fn m13_unrolls_without_a_row() {
    let mut aig = Aig::new();
    aig.new_latch(edge(3), None);
    let unrolled = aig.unroll_to(1);
    assert_eq!(unrolled.latchs[0].next, edge(2));
    assert_eq!(unrolled.num_nodes(), 2);
}
