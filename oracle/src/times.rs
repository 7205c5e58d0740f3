//! How long the crate's own calls take, on the graphs that `bench/run` measures the library with.

use crate::graph::{self, Lent, SLICES, WIDTH};
use aig::{Aig, AigEdge, TernarySimulate};
use logicrs::Lbool;
use std::hint::black_box;
use std::io::{self, Read};
use std::time::{Duration, Instant};

const RUNS: usize = 9;

/// What `measure graph` writes: how many frames, the graph, and the roots of a cone.
struct Given {
    frames: usize,
    graph: Aig,
    roots: Vec<AigEdge>,
}

fn take(words: &mut &[u32], n: usize) -> io::Result<Vec<u32>> {
    let (taken, rest) = words
        .split_at_checked(n)
        .ok_or(io::ErrorKind::UnexpectedEof)?;
    *words = rest;
    Ok(taken.to_vec())
}

fn given(mut bytes: impl Read) -> io::Result<Given> {
    let mut read = Vec::new();
    bytes.read_to_end(&mut read)?;
    let word = |four: &[u8]| u32::from_le_bytes([four[0], four[1], four[2], four[3]]);
    let all: Vec<u32> = read.chunks_exact(4).map(word).collect();
    let mut words = all.as_slice();
    let head = take(&mut words, SLICES + 2)?;
    let mut lent = Lent::new();
    for slice in 0..SLICES {
        lent.words[slice] = take(&mut words, head[1 + slice] as usize * WIDTH[slice])?;
    }
    lent.count_all();
    let roots = take(&mut words, head[SLICES + 1] as usize)?;
    Ok(Given {
        frames: head[0] as usize,
        graph: graph::to_aig(&lent),
        roots: roots.into_iter().map(graph::edge).collect(),
    })
}

/// The least of some runs. What a run starts from is made before it, and what it gives is dropped after it.
fn least<S, R>(start: impl Fn() -> S, job: impl Fn(S) -> R) -> Duration {
    let run = || {
        let start = black_box(start());
        let from = Instant::now();
        let made = black_box(job(start));
        let took = from.elapsed();
        drop(made);
        took
    };
    (0..RUNS).map(|_| run()).min().expect("there are some runs")
}

/// The codes that the library is given: 0, 1, 2 in turn.
fn codes(n: usize) -> Vec<Lbool> {
    let code = |i| [Lbool::FALSE, Lbool::TRUE, Lbool::UNKNOWN][i % 3];
    (0..n).map(code).collect()
}

/// A call that changes the graph.
fn changed<R>(graph: &Aig, job: impl Fn(&mut Aig) -> R) -> Duration {
    least(
        || graph.clone(),
        |mut copy| {
            let made = job(&mut copy);
            (copy, made)
        },
    )
}

/// A call that reads the graph.
fn read<R>(graph: &Aig, job: impl Fn(&Aig) -> R) -> Duration {
    least(|| graph, job)
}

fn simulated(graph: &Aig) -> Duration {
    let start = || {
        let simulation = TernarySimulate::new(graph, codes(graph.latchs.len()));
        (simulation, codes(graph.inputs.len()))
    };
    least(start, |(mut simulation, input)| {
        simulation.simulate(input);
        simulation
    })
}

fn timed(call: &str, given: &Given) -> Option<Duration> {
    let Given {
        frames,
        graph,
        roots,
    } = given;
    let ids: Vec<usize> = roots.iter().map(|root| root.node_id()).collect();
    let (input, state) = (codes(graph.inputs.len()), codes(graph.latchs.len()));
    Some(match call {
        "merge" => changed(graph, |g| g.merge(graph)),
        "reencode" => read(graph, Aig::reencode),
        "coi_refine" => read(graph, Aig::coi_refine),
        "unroll" => changed(graph, |g| g.unroll(graph)),
        "unroll_to" => read(graph, |g| g.unroll_to(*frames)),
        "aig_move" => read(graph, Aig::aig_move),
        "compress_property" => changed(graph, Aig::compress_property),
        "gate_init_to_constraint" => changed(graph, Aig::gate_init_to_constraint),
        "fanin_logic_cone" => read(graph, |g| g.fanin_logic_cone(roots)),
        "coi" => read(graph, |g| g.coi(&ids)),
        "ternary_simulate" => read(graph, |g| g.ternary_simulate(&input, &state)),
        "simulate" => simulated(graph),
        "cnf" => read(graph, |g| g.cnf(true)),
        _ => return None,
    })
}

/// Writes the nanoseconds of the crate's call. False where the crate has no such call.
pub fn times(call: &str, graph: impl Read) -> io::Result<bool> {
    match timed(call, &given(graph)?) {
        Some(took) => println!("{}", took.as_nanos()),
        None => {
            eprintln!("the crate has no call {call}");
            return Ok(false);
        }
    }
    Ok(true)
}
