//! The public `compile`, from the tape to the report and the operations: port and original on random lists.

use crate::layout::{word, OP_PLACES};
use crate::lent::Lent;
use oracle::compiled::answer::{answer, Compiled};
use oracle::compiled::graphs;
use oracle::families::{phases, FAMILIES};
use oracle::list::{List, RELABEL};
use oracle::rng::Rng;
use oracle::tape::tape;
use original::gate::Gate;

/// Lists of as many wires and blocks as there may be for each thousand of the others.
const WIDE: usize = 2;

/// What was compared of a family.
#[derive(Default)]
struct Counts {
    /// In every bit of report and operations.
    exact: usize,
    /// Angled ones: the same, where operations of diagonal blocks are document 01's.
    angled: usize,
    /// Angled ones that document 01 does not compare, and how many of these differ.
    apart: usize,
    apart_differ: usize,
    operations: usize,
    /// Lists by ordering.
    orderings: [usize; 3],
    differ: usize,
    smallest: Option<List>,
}

/// What both sides make of a list.
struct Sides {
    want: Compiled,
    got: Compiled,
    same: bool,
    /// Document 01 does not compare the two here.
    apart: bool,
}

fn sides(list: &List) -> Sides {
    let (want, seen) = answer(list);
    let (got, kept) = ported(list, want.ops.len() / OP_PLACES);
    let same = want.words() == got.words() && kept;
    Sides { want, got, same, apart: seen.apart }
}

/// Whether both sides answer the same.
pub fn same(list: &List) -> bool {
    sides(list).same
}

/// The port's answer with room for so many operations, and whether the slices are as they must be afterwards.
fn ported(list: &List, operations: usize) -> (Compiled, bool) {
    let gates = list.gates.len();
    let mut lent = Lent::new(gates, list.n, operations, gates % 3);
    let told = lent.compile(&tape(list).expect("a tape"));
    (lent.compiled(&told, list.n), lent.kept(told.refused[0], false))
}

impl Counts {
    fn add(&mut self, list: List) {
        let Sides { want, same, apart, .. } = sides(&list);
        if apart {
            self.apart += 1;
            self.apart_differ += usize::from(!same);
            return;
        }
        *(if want.report[word::ANGLED] == 1 { &mut self.angled } else { &mut self.exact }) += 1;
        self.operations += want.ops.len() / OP_PLACES;
        self.orderings[want.report[word::ORDERING] as usize] += 1;
        if !same {
            self.differ += 1;
            let list = shrunk(list);
            if self.smallest.as_ref().is_none_or(|s| list.gates.len() < s.gates.len()) {
                self.smallest = Some(list);
            }
        }
    }

    /// Prints the counts and the smallest list that differs; whether none does.
    fn end(self, name: &str) -> bool {
        let [identity, paths, greedy] = self.orderings;
        println!(
            "compile {name:<10} {} exact, {} angled, {} differ; {} operations; identity {identity}, paths {paths}, \
             greedy {greedy}; not compared {}, of which {} differ",
            self.exact, self.angled, self.differ, self.operations, self.apart, self.apart_differ
        );
        if let Some(list) = &self.smallest {
            let Sides { want, got, .. } = sides(list);
            println!("{list}original {want:?}\nport {got:?}");
        }
        self.differ == 0
    }
}

/// Leaves out gates as long as the answers still differ.
fn shrunk(mut list: List) -> List {
    list.queries.clear();
    let mut k = 0;
    while k < list.gates.len() {
        let mut less = list.clone();
        less.gates.remove(k);
        match sides(&less) {
            Sides { same: false, apart: false, .. } => (list, k) = (less, 0),
            _ => k += 1,
        }
    }
    list
}

/// Compares `count` lists of each family, of small graphs, and some of as many wires as there may be.
pub fn compare(rng: &mut Rng, count: usize) -> bool {
    let mut well = true;
    for (name, family) in FAMILIES {
        well &= family_of(name, count, || family(&mut rng.split()));
    }
    well &= family_of("phases", count, || phases::make(&mut rng.split()));
    well &= family_of("graphs", count, || graphs::random_list(rng, false));
    well &= family_of("wide", (count * WIDE).div_ceil(1000), || graphs::random_list(rng, true));
    well & known_differences()
}

/// The lists of docs/DIFFERENCES.md with a tolerance below 1e-12 that are an interaction on one side only.
fn known_differences() -> bool {
    use Gate::*;
    let of = |flags, gates| List { n: 2, flags, tol: 0.0, limit: 0, gates, queries: vec![] };
    let lists = [
        (of(RELABEL, vec![Phase(0, 3.0), ISwap(0, 1), Cz(0, 1)]), [1, 0]),
        (of(0, vec![Cz(0, 1), Rz(1, 0.3), Phase(0, 2.0), Cz(0, 1)]), [0, 1]),
    ];
    let differs = |(list, interactions): &&(List, [u64; 2])| {
        [answer(list).0, ported(list, 3).0].map(|c| c.report[word::INTERACTIONS]) == *interactions
    };
    let found = lists.iter().filter(differs).count();
    println!("compile known differences: {found} of {}", lists.len());
    found == lists.len()
}

fn family_of(name: &str, count: usize, mut list: impl FnMut() -> List) -> bool {
    let mut counts = Counts::default();
    (0..count).for_each(|_| counts.add(list()));
    counts.end(name)
}
