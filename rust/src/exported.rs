//! The functions of the archives, as `include/sulandiro.h` declares them, and how slices are lent
//! to them.
//!
//! A slice is two parameters, a pointer and a length. An empty slice's pointer dangles, which is
//! fine: the functions are proved to stay inside what they were lent, so of a slice of no elements
//! none is touched.

/// Declares functions by what each parameter is: `words` and `room` are slices of `u32` that are
/// read and written, `bytes` and `byte_room` of `u8`, `counts` and `told` of `u64`; `graph` and
/// `graph_room` are the nine slices of a graph.
macro_rules! exported {
    ($($name:ident($($parameter:tt)*) $(-> $result:ty)?;)*) => {
        $(exported!(@ $name [] ($($parameter)*) $($result)?);)*
    };
    (@ $name:ident [$($flat:tt)*] () $($result:ty)?) => {
        extern "C" {
            pub fn $name($($flat)*) $(-> $result)?;
        }
    };
    (@ $name:ident [$($flat:tt)*] (words $($rest:tt)*) $($result:ty)?) => {
        exported!(@ $name [$($flat)* _: *const u32, _: usize,] ($($rest)*) $($result)?);
    };
    (@ $name:ident [$($flat:tt)*] (room $($rest:tt)*) $($result:ty)?) => {
        exported!(@ $name [$($flat)* _: *mut u32, _: usize,] ($($rest)*) $($result)?);
    };
    (@ $name:ident [$($flat:tt)*] (bytes $($rest:tt)*) $($result:ty)?) => {
        exported!(@ $name [$($flat)* _: *const u8, _: usize,] ($($rest)*) $($result)?);
    };
    (@ $name:ident [$($flat:tt)*] (byte_room $($rest:tt)*) $($result:ty)?) => {
        exported!(@ $name [$($flat)* _: *mut u8, _: usize,] ($($rest)*) $($result)?);
    };
    (@ $name:ident [$($flat:tt)*] (counts $($rest:tt)*) $($result:ty)?) => {
        exported!(@ $name [$($flat)* _: *const u64, _: usize,] ($($rest)*) $($result)?);
    };
    (@ $name:ident [$($flat:tt)*] (told $($rest:tt)*) $($result:ty)?) => {
        exported!(@ $name [$($flat)* _: *mut u64, _: usize,] ($($rest)*) $($result)?);
    };
    (@ $name:ident [$($flat:tt)*] (graph $($rest:tt)*) $($result:ty)?) => {
        exported!(@ $name [$($flat)*] (words words words words words words words words words $($rest)*) $($result)?);
    };
    (@ $name:ident [$($flat:tt)*] (graph_room $($rest:tt)*) $($result:ty)?) => {
        exported!(@ $name [$($flat)*] (room room room room room room room room room $($rest)*) $($result)?);
    };
    (@ $name:ident [$($flat:tt)*] ($plain:ident $($rest:tt)*) $($result:ty)?) => {
        exported!(@ $name [$($flat)* _: $plain,] ($($rest)*) $($result)?);
    };
}

exported! {
    sulandiro_edge_new(u32 bool told);
    sulandiro_edge_node_id(u32) -> u32;
    sulandiro_edge_compl(u32) -> bool;
    sulandiro_edge_not(u32) -> u32;
    sulandiro_edge_not_if(u32 bool) -> u32;
    sulandiro_edge_constant(bool) -> u32;
    sulandiro_edge_is_const(u32) -> bool;
    sulandiro_edge_is_constant(u32 bool) -> bool;
    sulandiro_edge_try_to_constant(u32) -> u8;
    sulandiro_edge_to_constant(u32 told);
    sulandiro_edge_map(u32 words told);
    sulandiro_is_and(words usize u32 told);
    sulandiro_is_leaf(words usize u32 told);
    sulandiro_fanin(words usize u32 told);
    sulandiro_fanin0(words usize u32 told);
    sulandiro_fanin1(words usize u32 told);

    sulandiro_new(room told);
    sulandiro_new_leaf_node(room counts told);
    sulandiro_new_input(room room counts told);
    sulandiro_add_input(words room counts u32 told);
    sulandiro_new_latch(room room counts u32 u32 told);
    sulandiro_add_latch(words room counts u32 u32 u32 told);
    sulandiro_trivial_new_and_node(room counts u32 u32 told);
    sulandiro_new_and_node(room counts u32 u32 told);
    sulandiro_trivial_new_or_node(room counts u32 u32 told);
    sulandiro_new_or_node(room counts u32 u32 told);
    sulandiro_new_imply_node(room counts u32 u32 told);
    sulandiro_trivial_new_ands_node(room counts words told);
    sulandiro_new_ands_node(room counts words told);
    sulandiro_trivial_new_ors_node(room counts words told);
    sulandiro_new_ors_node(room counts words told);
    sulandiro_new_eq_node(room counts u32 u32 told);

    sulandiro_check(graph counts room told);
    sulandiro_fanin_logic_cone(graph counts words room room told);
    sulandiro_coi(graph counts words room room room told);
    sulandiro_ternary_simulate(graph counts bytes bytes byte_room room told);
    sulandiro_simulate(graph counts bytes byte_room byte_room room told);
    sulandiro_value(bytes usize u32 told);
    sulandiro_cnf(graph counts bool room room told);

    sulandiro_merge(graph_room counts graph counts room told);
    sulandiro_reencode(graph counts graph_room room told);
    sulandiro_coi_refine(graph counts graph_room room room told);
    sulandiro_unroll(graph_room counts graph counts room told);
    sulandiro_unroll_to(graph counts usize graph_room room told);
    sulandiro_aig_move(graph counts graph_room room told);
    sulandiro_compress_property(room words words words room words words words words counts room room told);
    sulandiro_gate_init_to_constraint(room words room room words words words words words counts room told);
}

/// Calls such a function: `read` and `write` take a slice, `graph` a [`Graph`](crate::Graph) with
/// its counts, `room` the nine slices of a [`Room`](crate::Room), `word` any plain argument.
macro_rules! lend {
    ($function:ident($($kind:ident $argument:expr),* $(,)?)) => {
        lend!(@ $function [] $($kind $argument,)*)
    };
    (@ $function:ident [$($flat:tt)*]) => {
        crate::exported::$function($($flat)*)
    };
    (@ $function:ident [$($flat:tt)*] word $e:expr, $($rest:tt)*) => {
        lend!(@ $function [$($flat)* $e,] $($rest)*)
    };
    (@ $function:ident [$($flat:tt)*] read $e:expr, $($rest:tt)*) => {
        lend!(@ $function [$($flat)* $e.as_ptr(), $e.len(),] $($rest)*)
    };
    (@ $function:ident [$($flat:tt)*] write $e:expr, $($rest:tt)*) => {
        lend!(@ $function [$($flat)* $e.as_mut_ptr(), $e.len(),] $($rest)*)
    };
    (@ $function:ident [$($flat:tt)*] graph $g:expr, $($rest:tt)*) => {
        lend!(@ $function [$($flat)*] read $g.rows, read $g.inputs, read $g.latches,
        read $g.constraints, read $g.bads, read $g.outputs,
            read $g.ends, read $g.edges, read $g.fairness, $($rest)*)
    };
    (@ $function:ident [$($flat:tt)*] room $g:expr, $($rest:tt)*) => {
        lend!(@ $function [$($flat)*] write $g.rows, write $g.inputs, write $g.latches,
        write $g.constraints, write $g.bads, write $g.outputs,
            write $g.ends, write $g.edges, write $g.fairness, $($rest)*)
    };
}
pub(crate) use lend;
