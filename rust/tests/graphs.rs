//! The crate's own side: refusals with their place, counts in place, what stands after a refusal,
//! empty slices. Words and answers at large are held to the oracle by `examples/replay`.

use sulandiro::{build, ternary, Counts, Graph, Refusal, Room, Stopped, FALSE_ROW, NONE};

/// Document 01's table X: exclusive or of 1 and 2.
const X: [u32; 12] = [FALSE_ROW, 0, NONE, 0, NONE, 0, 2, 4, 3, 5, 7, 9];

fn x() -> Graph<'static> {
    Graph {
        rows: &X,
        inputs: &[1, 2],
        outputs: &[10],
        counts: Counts {
            rows: 6,
            inputs: 2,
            outputs: 1,
            ..Counts::default()
        },
        ..Graph::default()
    }
}

/// "M5 [..] eq(2,4) on those three adds X's last rows and answers 11."
#[test]
fn x_is_built() {
    let (mut rows, mut inputs) = ([0; 12], [0; 2]);
    let mut counts = build::new(&mut rows).unwrap();
    assert_eq!(build::new_input(&mut rows, &mut inputs, &mut counts), Ok(1));
    assert_eq!(build::new_input(&mut rows, &mut inputs, &mut counts), Ok(2));
    assert_eq!(build::new_eq_node(&mut rows, &mut counts, 2, 4), Ok(11));
    assert_eq!((rows, inputs), (X, [1, 2]));
    assert_eq!(
        counts,
        Counts {
            outputs: 0,
            ..x().counts
        }
    );
}

#[test]
fn a_refused_constructor_leaves_the_counts() {
    let mut rows = X;
    let mut counts = x().counts;
    let full = build::trivial_new_and_node(&mut rows, &mut counts, 2, 4);
    assert_eq!(full, Err(Refusal::NoRoom));
    let not_used = build::new_and_node(&mut rows, &mut counts, 2, 12);
    assert_eq!(not_used, Err(Refusal::BadArgument));
    assert_eq!((rows, counts), (X, x().counts));
    // "A folded call needs no room and succeeds in a full table."
    assert_eq!(build::new_and_node(&mut rows, &mut counts, 2, 3), Ok(0));
}

#[test]
fn a_refusal_has_its_place() {
    let marks = &mut [7; 6];
    assert_eq!(sulandiro::check(&x(), marks), Ok(()));
    assert_eq!(*marks, [0; 6]);
    let short = sulandiro::check(&x(), &mut marks[..5]);
    assert_eq!(short, Err(Refusal::BadSizes));
    let mut rows = X;
    rows[9] = 8;
    let row = Graph { rows: &rows, ..x() };
    assert_eq!(sulandiro::check(&row, marks), Err(Refusal::BadRow(4)));
    let mut justice = x();
    (justice.ends, justice.edges) = (&[1, 3], &[2, 4, 12]);
    (justice.counts.sets, justice.counts.edges) = (2, 3);
    let entry = Refusal::BadEntry {
        list: 6,
        index: 1,
        second: 2,
    };
    assert_eq!(sulandiro::check(&justice, marks), Err(entry));
    assert_eq!(entry.to_string(), "edge 1 of justice set 1 is bad");
}

/// No slice is lent at all, and in the last call no room: those pointers dangle.
#[test]
fn empty_slices_are_refused() {
    let nothing = Graph::default();
    assert_eq!(sulandiro::check(&nothing, &mut []), Err(Refusal::BadSizes));
    assert_eq!(build::new(&mut []), Err(Refusal::NoRoom));
    let copied = sulandiro::reencode(&x(), &mut Room::default(), &mut [0; 6]);
    assert_eq!(copied, Err(Refusal::NoRoom));
}

/// M8 and M9.
#[test]
fn clauses_of_x() {
    let (mut clauses, marks) = ([7; 32], &mut [0; 6]);
    assert_eq!(sulandiro::cnf(&x(), true, &mut clauses, marks), Ok(18));
    let words = [1, 1, 3, 11, 2, 4, 3, 11, 3, 5, 3, 10, 3, 4, 3, 10, 2, 5];
    assert_eq!((&clauses[..18], clauses[18]), (&words[..], 7));
    let short = sulandiro::cnf(&x(), false, &mut clauses[..31], marks);
    assert_eq!((short, clauses[18]), (Err(Refusal::NoRoom), 7));
    assert_eq!(sulandiro::cnf(&x(), false, &mut clauses, marks), Ok(32));
}

/// Input 1, latch 2 whose next is their AND.
fn latched() -> Graph<'static> {
    Graph {
        rows: &[FALSE_ROW, 0, NONE, 0, NONE, 0, 2, 4],
        inputs: &[1],
        latches: &[2, 6, 1],
        counts: Counts {
            rows: 4,
            inputs: 1,
            latches: 1,
            ..Counts::default()
        },
        ..Graph::default()
    }
}

/// "at answer 5 the copy and the frames already finished stand and their number is answered"
#[test]
fn frames_that_do_not_fit() {
    let (mut rows, mut inputs, mut latches) = ([7; 14], [7; 3], [7; 3]);
    let copy = &mut Room {
        rows: &mut rows,
        inputs: &mut inputs,
        latches: &mut latches,
        ..Room::default()
    };
    let counts = Counts {
        rows: 6,
        inputs: 2,
        latches: 1,
        ..Counts::default()
    };
    let stopped = Stopped {
        refusal: Refusal::NoRoom,
        finished: 1,
        counts,
    };
    let marks = &mut [0; 4];
    let unrolled = sulandiro::unroll_to(&latched(), 2, copy, marks);
    assert_eq!(unrolled, Err(stopped));
    assert_eq!(sulandiro::check(&copy.graph(counts), &mut [0; 6]), Ok(()));
    assert_eq!(rows[8..], [NONE, 0, 6, 8, 7, 7]);
    assert_eq!((inputs, latches), ([1, 4, 7], [2, 10, 1]));
}

#[test]
fn two_steps() {
    let (mut state, mut values, marks) = ([1], [7; 4], &mut [0; 4]);
    let graph = latched();
    assert_eq!(
        ternary::simulate(&graph, &[ternary::UNKNOWN], &mut state, &mut values, marks),
        Ok(())
    );
    assert_eq!((state, values), ([2], [0, 2, 1, 2]));
    assert_eq!(
        ternary::simulate(&graph, &[ternary::FALSE], &mut state, &mut values, marks),
        Ok(())
    );
    assert_eq!((state, values), ([0], [0, 0, 2, 0]));
    assert_eq!(ternary::value(&values, 4, 7), Ok(ternary::TRUE));
}

#[test]
fn a_refused_merge_changes_nothing() {
    let (mut rows, mut inputs) = (X, [1, 2]);
    let target = &mut Room {
        rows: &mut rows,
        inputs: &mut inputs,
        ..Room::default()
    };
    let mut counts = Counts {
        outputs: 0,
        ..x().counts
    };
    let merged = sulandiro::merge(target, &mut counts, &x(), &mut [0; 6]);
    assert_eq!(merged, Err(Refusal::NoRoom));
    assert_eq!((rows, inputs, counts.rows), (X, [1, 2], 6));
}
