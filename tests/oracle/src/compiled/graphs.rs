//! Matchgates on the edges of graphs with weights: which order is chosen, and
//! where its paths start.

use super::{plain, TOL};
use crate::layout::{word, MAX_GATES, MAX_QUBITS, OP_PLACES};
use crate::list::{List, RELABEL, REORDER};
use crate::records::Records;
use crate::rng::Rng;
use original::access::detect::access::path_order;
use original::gate::Gate;

/// Two wires, the smaller first, and how many blocks join them.
type Edge = ((usize, usize), usize);

/// Flags of random lists: mostly with reordering.
const FLAGS: [u8; 5] = [REORDER, REORDER, REORDER | RELABEL, REORDER | RELABEL, RELABEL];

/// Operation places of a small list at most, so that there is room for many.
const MOST_PLACES: usize = 4 * OP_PLACES;

/// A graph on n wires.
#[derive(Clone)]
struct Graph {
    n: usize,
    edges: Vec<Edge>,
}

/// What the graphs are about.
#[derive(Default, Debug)]
struct Met {
    /// A cover that covers as much as the identity, and not all: the identity stays.
    ties: usize,
    /// With equal weights the order would be another.
    weights: usize,
    paths: usize,
    greedy: usize,
}

pub fn add(out: &mut Records) {
    let rng = &mut Rng::new(5);
    let mut met = Met::default();
    for graph in shapes(rng) {
        let list = list(rng, &graph, REORDER);
        assert!(plain(out, &list, |_| true), "{graph}");
        met.count(&graph);
    }
    let wide = wide(rng);
    let added = plain(out, &list(rng, &wide, REORDER), |c| c.report[word::ANGLED] == 0);
    assert!(added, "{MAX_GATES} matchgates");
    for _ in 0..400 {
        let graph = random(rng);
        let flags = rng.pick(&FLAGS);
        let small = plain(out, &list(rng, &graph, flags), |c| c.ops.len() <= MOST_PLACES);
        if small && flags & REORDER != 0 {
            met.count(&graph);
        }
    }
    assert!(met.ties.min(met.weights).min(met.paths).min(met.greedy) >= 10, "{met:?}");
}

impl Met {
    fn count(&mut self, g: &Graph) {
        let identity: Vec<usize> = (0..g.n).collect();
        let even: Vec<Edge> = g.edges.iter().map(|e| (e.0, 1)).collect();
        let (order, _, all) = path_order(g.n, &g.edges);
        let (kept, found) = (g.covered(&identity), g.covered(&order));
        let total: usize = g.edges.iter().map(|e| e.1).sum();
        self.ties += usize::from(kept == found && kept < total);
        self.paths += usize::from(kept < found && all);
        self.greedy += usize::from(kept < found && !all);
        self.weights += usize::from(kept < found && path_order(g.n, &even).0 != order);
    }
}

impl Graph {
    /// The blocks whose wires are neighbours in an order.
    fn covered(&self, order: &[usize]) -> usize {
        let at = |w: usize| order.iter().position(|&x| x == w).expect("a mode for each wire");
        let near = |e: &&Edge| at(e.0 .0).abs_diff(at(e.0 .1)) == 1;
        self.edges.iter().filter(near).map(|e| e.1).sum()
    }

    /// The graph of some pairs, the weight of a pair being how often it stands there.
    fn of(n: usize, pairs: impl IntoIterator<Item = (usize, usize)>) -> Graph {
        let mut pairs: Vec<_> = pairs.into_iter().map(|(a, b)| (a.min(b), a.max(b))).collect();
        pairs.sort_unstable();
        let edges = pairs.chunk_by(|x, y| x == y).map(|same| (same[0], same.len())).collect();
        Graph { n, edges }
    }

    /// The same with other weights.
    fn weighted(&self, weight: impl Fn(usize) -> usize) -> Graph {
        let edges = self.edges.iter().enumerate().map(|(k, e)| (e.0, weight(k))).collect();
        Graph { n: self.n, edges }
    }
}

impl std::fmt::Display for Graph {
    fn fmt(&self, f: &mut std::fmt::Formatter<'_>) -> std::fmt::Result {
        write!(f, "{} wires, {:?}", self.n, self.edges)
    }
}

/// Stars, cycles, complete graphs and paths, with equal weights and with one edge heavier.
fn shapes(rng: &mut Rng) -> Vec<Graph> {
    let star = |n: usize, c: usize| Graph::of(n, (0..n).filter(|&w| w != c).map(|w| (c, w)));
    let ring = |wires: &[usize]| {
        (0..wires.len()).map(|k| (wires[k], wires[(k + 1) % wires.len()])).collect::<Vec<_>>()
    };
    let cycle = |n: usize| Graph::of(n, ring(&(0..n).collect::<Vec<_>>()));
    let mut all =
        vec![star(4, 0), star(4, 1), star(5, 4), star(6, 2), cycle(3), cycle(4), cycle(6)];
    all.push(Graph::of(6, [ring(&[0, 2, 4]), ring(&[1, 3, 5])].concat()));
    all.push(Graph::of(7, [ring(&[0, 3, 5]), vec![(1, 6), (6, 2), (2, 4)]].concat()));
    for n in [4, 5] {
        all.push(Graph::of(n, (0..n).flat_map(|a| (0..a).map(move |b| (a, b)))));
    }
    for n in [3, 5, 8] {
        let hidden = rng.permutation(n);
        all.push(Graph::of(n, hidden.windows(2).map(|w| (w[0], w[1]))));
    }
    let heavier = |g: &Graph| {
        let last = g.edges.len() - 1;
        [g.weighted(|k| 1 + usize::from(k == last)), g.weighted(|k| 1 + usize::from(k != 0))]
    };
    let more: Vec<Graph> = all.iter().flat_map(heavier).collect();
    all.extend(more);
    all
}

/// As many blocks as there may be, on random pairs of as many wires.
fn wide(rng: &mut Rng) -> Graph {
    let mut pairs = Vec::new();
    while pairs.len() < MAX_GATES {
        let (a, b) = (rng.below(MAX_QUBITS), rng.below(MAX_QUBITS));
        pairs.extend((a != b).then_some((a, b)));
    }
    Graph::of(MAX_QUBITS, pairs)
}

/// Blocks on the edges of a random graph, small or of as many wires as there may be.
pub fn random_list(rng: &mut Rng, wide: bool) -> List {
    let graph = if wide { self::wide(rng) } else { random(rng) };
    let flags = rng.pick(&FLAGS);
    let mut list = list(rng, &graph, flags);
    list.gates.truncate(MAX_GATES);
    list
}

/// A few pairs with small weights.
fn random(rng: &mut Rng) -> Graph {
    let n = rng.between(3, 8);
    let pairs: Vec<_> = (0..rng.between(2, n + 1))
        .map(|_| rng.permutation(n))
        .map(|p| (p[0].min(p[1]), p[0].max(p[1])))
        .collect();
    Graph::of(n, pairs).weighted(|k| 1 + (k * k + n) % 3)
}

/// The blocks in a random sequence. Two on one pair with none between would be one block: there a
/// three-qubit gate stands between. With relabelling there are swaps, which move wires to other qubits.
fn list(rng: &mut Rng, g: &Graph, flags: u8) -> List {
    let mut left: Vec<(usize, usize)> =
        g.edges.iter().flat_map(|e| std::iter::repeat_n(e.0, e.1)).collect();
    let mut qubit: Vec<usize> = (0..g.n).collect();
    let mut last: Vec<usize> = (0..g.n).collect();
    let mut gates = Vec::new();
    while !left.is_empty() {
        let free: Vec<usize> =
            (0..left.len()).filter(|&k| last[left[k].0] != last[left[k].1]).collect();
        let k = if free.is_empty() { rng.below(left.len()) } else { rng.pick(&free) };
        let (v, w) = left.swap_remove(k);
        if free.is_empty() {
            let x = (0..g.n).find(|x| ![v, w].contains(x)).expect("a third wire");
            gates.push(Gate::Ccx(qubit[v], qubit[w], qubit[x]));
        }
        if flags & RELABEL != 0 && rng.chance(1, 4) {
            gates.push(Gate::Swap(qubit[v], qubit[w]));
            qubit.swap(v, w);
        }
        let (a, b) = rng.pick(&[(qubit[v], qubit[w]), (qubit[w], qubit[v])]);
        gates.push(rng.pick(&[Gate::ISwap(a, b), Gate::ISwapdg(a, b)]));
        (last[v], last[w]) = (g.n + gates.len(), g.n + gates.len());
    }
    List { n: g.n, flags, tol: TOL, limit: 0, gates, queries: vec![] }
}
