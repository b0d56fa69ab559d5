//! The calls that `tree_rows` measures, over plain Rust in place of the trees, in two forms: two maps of Rust's library,
//! and a tree of the same shape, written by hand. Built by `rustc -O tools/tree-stand-in.rs`.

use std::cell::Cell;
use std::collections::{BTreeMap, BTreeSet};
use std::marker::PhantomData;
use std::time::Instant;

const RUNS: u32 = 65_000;
const CALLS: u32 = 1_000_000;

/// What is measured. A run is its start and its count.
trait Trees {
    const NAME: &'static str;

    fn new() -> Self;

    /// The lowest unit of a segment that is there.
    fn meets(&self, start: u32, count: u32) -> Option<u32>;

    fn covers(&self, start: u32, count: u32) -> bool;

    fn add(&mut self, start: u32, count: u32);

    fn remove(&mut self, start: u32, count: u32);

    fn best(&self, count: u32) -> Option<(u32, u32)>;

    fn first_from(&self, count: u32, at: u32) -> Option<(u32, u32)>;

    fn runs(&self) -> u32;
}

/// What is counted of the runs.
#[derive(Default)]
struct Counts {
    runs: u32,
    units: u32,
    // How many runs there are whose length has its highest set bit at each place.
    lengths: [u32; 18],
}

impl Counts {
    fn put(&mut self, count: u32) {
        self.runs += 1;
        self.units += count;
        self.lengths[count.ilog2() as usize] += 1;
    }

    fn take(&mut self, count: u32) {
        self.runs -= 1;
        self.units -= count;
        self.lengths[count.ilog2() as usize] -= 1;
    }
}

/// Runs by their starts, and by their lengths and starts.
struct Maps {
    by_place: BTreeMap<u32, u32>,
    by_size: BTreeSet<(u32, u32)>,
    counts: Counts,
}

impl Maps {
    /// The first run that ends behind a unit.
    fn first_ending(&self, unit: u32) -> Option<(u32, u32)> {
        if let Some((&start, &count)) = self.by_place.range(..=unit).next_back() {
            if unit < start + count {
                return Some((start, count));
            }
        }
        self.by_place.range(unit..).next().map(|(&start, &count)| (start, count))
    }

    fn put(&mut self, start: u32, count: u32) {
        self.by_place.insert(start, count);
        self.by_size.insert((count, start));
        self.counts.put(count);
    }

    fn take(&mut self, start: u32, count: u32) {
        self.by_place.remove(&start);
        self.by_size.remove(&(count, start));
        self.counts.take(count);
    }
}

impl Trees for Maps {
    const NAME: &'static str = "two maps";

    fn new() -> Self {
        Maps { by_place: BTreeMap::new(), by_size: BTreeSet::new(), counts: Counts::default() }
    }

    fn meets(&self, start: u32, count: u32) -> Option<u32> {
        self.first_ending(start).filter(|run| run.0 < start + count).map(|run| run.0.max(start))
    }

    fn covers(&self, start: u32, count: u32) -> bool {
        self.first_ending(start).is_some_and(|run| run.0 <= start && start + count <= run.0 + run.1)
    }

    fn add(&mut self, start: u32, count: u32) {
        let (mut low, mut high) = (start, start + count);
        if let Some((&left, &units)) = self.by_place.range(..start).next_back() {
            if left + units == start {
                self.take(left, units);
                low = left;
            }
        }
        if let Some(&units) = self.by_place.get(&high) {
            self.take(high, units);
            high += units;
        }
        self.put(low, high - low);
    }

    fn remove(&mut self, start: u32, count: u32) {
        let Some((low, units)) = self.first_ending(start) else { return };
        self.take(low, units);
        if low < start {
            self.put(low, start - low);
        }
        if start + count < low + units {
            self.put(start + count, low + units - start - count);
        }
    }

    fn best(&self, count: u32) -> Option<(u32, u32)> {
        self.by_size.range((count, 0)..).next().map(|&(count, start)| (start, count))
    }

    fn first_from(&self, count: u32, at: u32) -> Option<(u32, u32)> {
        self.by_place.range(at..).map(|(&start, &units)| (start, units)).find(|run| run.1 >= count)
    }

    fn runs(&self) -> u32 {
        self.counts.runs
    }
}

/// The place of no node.
const NONE: u32 = u32::MAX;

/// What hangs below a node in one order, and how many levels it has with that.
#[derive(Clone, Copy, PartialEq)]
struct Links {
    left: u32,
    right: u32,
    height: u8,
}

const UNLINKED: Links = Links { left: NONE, right: NONE, height: 0 };

#[derive(Clone, Copy)]
struct Node {
    start: u32,
    count: u32,
    by_place: Links,
    by_size: Links,
    // The longest run of the subtree in the order by place.
    longest: u32,
}

/// One of the two orders of the nodes.
trait Order {
    fn before(first: &Node, second: &Node) -> bool;
    fn links(node: &Node) -> Links;
    fn link(node: &mut Node, links: Links, longest: u32);
    fn longest(node: &Node) -> u32;
}

struct ByPlace;
struct BySize;

impl Order for ByPlace {
    fn before(first: &Node, second: &Node) -> bool {
        first.start < second.start
    }
    fn links(node: &Node) -> Links {
        node.by_place
    }
    fn link(node: &mut Node, links: Links, longest: u32) {
        node.by_place = links;
        node.longest = longest.max(node.count);
    }
    fn longest(node: &Node) -> u32 {
        node.longest
    }
}

impl Order for BySize {
    fn before(first: &Node, second: &Node) -> bool {
        (first.count, first.start) < (second.count, second.start)
    }
    fn links(node: &Node) -> Links {
        node.by_size
    }
    fn link(node: &mut Node, links: Links, _longest: u32) {
        node.by_size = links;
    }
    fn longest(_node: &Node) -> u32 {
        0
    }
}

/// The nodes of both orders, as one order sees them.
struct Nodes<'a, O> {
    nodes: &'a mut [Node],
    order: PhantomData<O>,
}

impl<O: Order> Nodes<'_, O> {
    fn height(&self, at: u32) -> u8 {
        if at == NONE { 0 } else { O::links(&self.nodes[at as usize]).height }
    }

    fn longest(&self, at: u32) -> u32 {
        if at == NONE { 0 } else { O::longest(&self.nodes[at as usize]) }
    }

    /// What a subtree tells the node above it.
    fn told(&self, at: u32) -> (u32, u8, u32) {
        (at, self.height(at), self.longest(at))
    }

    fn attach(&mut self, at: u32, left: u32, right: u32) {
        let height = self.height(left).max(self.height(right)) + 1;
        let longest = self.longest(left).max(self.longest(right));
        O::link(&mut self.nodes[at as usize], Links { left, right, height }, longest);
    }

    /// Puts a node over two subtrees, and tells what is on top then.
    fn join(&mut self, at: u32, left: u32, right: u32) -> u32 {
        let (before, behind) = (self.height(left), self.height(right));
        if before > behind + 1 {
            return self.lean_left(at, left, right);
        }
        if behind > before + 1 {
            return self.lean_right(at, left, right);
        }
        self.attach(at, left, right);
        at
    }

    fn lean_left(&mut self, at: u32, left: u32, right: u32) -> u32 {
        let Links { left: outer, right: mid, .. } = O::links(&self.nodes[left as usize]);
        if self.height(mid) <= self.height(outer) {
            self.attach(at, mid, right);
            self.attach(left, outer, at);
            return left;
        }
        let Links { left: low, right: high, .. } = O::links(&self.nodes[mid as usize]);
        self.attach(left, outer, low);
        self.attach(at, high, right);
        self.attach(mid, left, at);
        mid
    }

    fn lean_right(&mut self, at: u32, left: u32, right: u32) -> u32 {
        let Links { left: mid, right: outer, .. } = O::links(&self.nodes[right as usize]);
        if self.height(mid) <= self.height(outer) {
            self.attach(at, left, mid);
            self.attach(right, at, outer);
            return right;
        }
        let Links { left: low, right: high, .. } = O::links(&self.nodes[mid as usize]);
        self.attach(at, left, low);
        self.attach(right, high, outer);
        self.attach(mid, at, right);
        mid
    }

    fn insert(&mut self, root: u32, no: u32) -> u32 {
        if root == NONE {
            self.attach(no, NONE, NONE);
            return no;
        }
        let Links { left, right, .. } = O::links(&self.nodes[root as usize]);
        if O::before(&self.nodes[no as usize], &self.nodes[root as usize]) {
            let before = self.told(left);
            let below = self.insert(left, no);
            if self.told(below) == before { root } else { self.join(root, below, right) }
        } else {
            let before = self.told(right);
            let below = self.insert(right, no);
            if self.told(below) == before { root } else { self.join(root, left, below) }
        }
    }

    fn take_first(&mut self, root: u32) -> (u32, u32) {
        let Links { left, right, .. } = O::links(&self.nodes[root as usize]);
        if left == NONE {
            return (root, right);
        }
        let before = self.told(left);
        let (first, below) = self.take_first(left);
        if self.told(below) == before { (first, root) } else { (first, self.join(root, below, right)) }
    }

    fn remove(&mut self, root: u32, no: u32) -> u32 {
        let Links { left, right, .. } = O::links(&self.nodes[root as usize]);
        if root == no {
            if right == NONE {
                return left;
            }
            let (first, rest) = self.take_first(right);
            return self.join(first, left, rest);
        }
        if O::before(&self.nodes[no as usize], &self.nodes[root as usize]) {
            let before = self.told(left);
            let below = self.remove(left, no);
            if self.told(below) == before { root } else { self.join(root, below, right) }
        } else {
            let before = self.told(right);
            let below = self.remove(right, no);
            if self.told(below) == before { root } else { self.join(root, left, below) }
        }
    }
}

/// Runs as nodes in two balanced orders, by place and by size.
struct Tree {
    nodes: Vec<Node>,
    vacant: Vec<u32>,
    places: u32,
    sizes: u32,
    counts: Counts,
    visits: Cell<u64>,
}

impl Tree {
    fn by_place(&mut self) -> Nodes<'_, ByPlace> {
        Nodes { nodes: &mut self.nodes, order: PhantomData }
    }

    fn by_size(&mut self) -> Nodes<'_, BySize> {
        Nodes { nodes: &mut self.nodes, order: PhantomData }
    }

    /// A node that is visited.
    fn node(&self, at: u32) -> &Node {
        self.visits.set(self.visits.get() + 1);
        &self.nodes[at as usize]
    }

    /// The first run that ends at a unit or behind it.
    fn first_ending(&self, unit: u32) -> Option<u32> {
        let (mut found, mut below) = (None, self.places);
        while below != NONE {
            let node = self.node(below);
            if node.start + node.count < unit {
                below = node.by_place.right;
            } else {
                found = Some(below);
                below = node.by_place.left;
            }
        }
        found
    }

    fn put(&mut self, start: u32, count: u32) {
        let node = Node { start, count, by_place: UNLINKED, by_size: UNLINKED, longest: 0 };
        let no = match self.vacant.pop() {
            Some(no) => {
                self.nodes[no as usize] = node;
                no
            }
            None => {
                self.nodes.push(node);
                self.nodes.len() as u32 - 1
            }
        };
        let (places, sizes) = (self.places, self.sizes);
        self.places = self.by_place().insert(places, no);
        self.sizes = self.by_size().insert(sizes, no);
        self.counts.put(count);
    }

    fn take(&mut self, no: u32) -> Node {
        let (places, sizes) = (self.places, self.sizes);
        self.places = self.by_place().remove(places, no);
        self.sizes = self.by_size().remove(sizes, no);
        self.vacant.push(no);
        let node = self.nodes[no as usize];
        self.counts.take(node.count);
        node
    }

    fn longest(&self, at: u32) -> u32 {
        if at == NONE { 0 } else { self.nodes[at as usize].longest }
    }

    /// The node behind which the first long run from a unit on stands first, itself or on its right.
    fn turning_point(&self, count: u32, at: u32) -> Option<u32> {
        let (mut point, mut below) = (None, self.places);
        while below != NONE {
            let node = self.node(below);
            if node.start < at {
                below = node.by_place.right;
            } else {
                if node.count >= count || self.longest(node.by_place.right) >= count {
                    point = Some(below);
                }
                below = node.by_place.left;
            }
        }
        point
    }
}

impl Trees for Tree {
    const NAME: &'static str = "hand-written tree";

    fn new() -> Self {
        let nodes = Vec::with_capacity(RUNS as usize + 8);
        Tree { nodes, vacant: Vec::new(), places: NONE, sizes: NONE, counts: Counts::default(), visits: Cell::new(0) }
    }

    fn meets(&self, start: u32, count: u32) -> Option<u32> {
        let node = &self.nodes[self.first_ending(start + 1)? as usize];
        if node.start < start + count { Some(node.start.max(start)) } else { None }
    }

    fn covers(&self, start: u32, count: u32) -> bool {
        self.first_ending(start + 1).is_some_and(|no| {
            let node = &self.nodes[no as usize];
            node.start <= start && start + count <= node.start + node.count
        })
    }

    fn add(&mut self, start: u32, count: u32) {
        let (mut low, mut high) = (start, start + count);
        let Some(no) = self.first_ending(start) else { return self.put(start, count) };
        let node = self.nodes[no as usize];
        if high < node.start {
            return self.put(start, count);
        }
        if node.start + node.count == start {
            low = self.take(no).start;
        }
        if let Some(no) = self.first_ending(high + 1) {
            if self.nodes[no as usize].start == high {
                high += self.take(no).count;
            }
        }
        self.put(low, high - low);
    }

    fn remove(&mut self, start: u32, count: u32) {
        let Some(no) = self.first_ending(start + 1) else { return };
        let node = self.take(no);
        let (low, high) = (node.start, node.start + node.count);
        if low < start {
            self.put(low, start - low);
        }
        if start + count < high {
            self.put(start + count, high - start - count);
        }
    }

    fn best(&self, count: u32) -> Option<(u32, u32)> {
        let (mut found, mut below) = (None, self.sizes);
        while below != NONE {
            let node = self.node(below);
            if node.count < count {
                below = node.by_size.right;
            } else {
                found = Some((node.start, node.count));
                below = node.by_size.left;
            }
        }
        found
    }

    fn first_from(&self, count: u32, at: u32) -> Option<(u32, u32)> {
        let mut below = self.turning_point(count, at)?;
        let node = &self.nodes[below as usize];
        if node.count >= count {
            return Some((node.start, node.count));
        }
        below = node.by_place.right;
        loop {
            let node = self.node(below);
            if self.longest(node.by_place.left) >= count {
                below = node.by_place.left;
            } else if node.count >= count {
                return Some((node.start, node.count));
            } else {
                below = node.by_place.right;
            }
        }
    }

    fn runs(&self) -> u32 {
        self.counts.runs
    }
}

struct Random(u64);

impl Random {
    fn below(&mut self, most: u32) -> u32 {
        self.0 = self.0.wrapping_mul(6_364_136_223_846_793_005).wrapping_add(1_442_695_040_888_963_407);
        ((self.0 / 8_589_934_592) % u64::from(most)) as u32
    }
}

fn tell<T: Trees>(call: &str, calls: u32, start: Instant) {
    println!("{} {call}: {} ns a call, of {calls}", T::NAME, start.elapsed().as_nanos() / u128::from(calls));
}

/// A unit away and back, so many times.
fn change<T: Trees>(trees: &mut T, random: &mut Random, calls: u32) {
    let start = Instant::now();
    for _ in 0..calls {
        let unit = 2 * random.below(RUNS);
        if trees.covers(unit, 1) {
            trees.remove(unit, 1);
        }
        if trees.meets(unit, 1).is_none() {
            trees.add(unit, 1);
        }
    }
    tell::<T>("covers, remove, meets and add", calls, start);
}

fn measure<T: Trees>(calls: u32) {
    let mut trees = T::new();
    let start = Instant::now();
    for number in 0..RUNS {
        if trees.meets(2 * number, 1).is_none() {
            trees.add(2 * number, 1);
        }
    }
    tell::<T>("meets and add", RUNS, start);
    let mut random = Random(1);
    change(&mut trees, &mut random, calls);
    let mut found = 0;
    let start = Instant::now();
    for _ in 0..calls {
        found += u32::from(trees.best(1 + random.below(2)).is_some());
    }
    tell::<T>("best", calls, start);
    let start = Instant::now();
    for _ in 0..calls {
        found += u32::from(trees.first_from(1, random.below(2 * RUNS)).is_some());
    }
    tell::<T>("first_from", calls, start);
    // No run is so long: only a tree that knows its longest run sees it at once.
    let start = Instant::now();
    for _ in 0..calls / 1000 {
        found += u32::from(trees.first_from(2, random.below(2 * RUNS)).is_some());
    }
    tell::<T>("first_from where no run is long enough", calls / 1000, start);
    println!("{} found {found}, runs {}", T::NAME, trees.runs());
}

fn main() {
    match std::env::args().nth(1).as_deref() {
        Some("tree") => measure::<Tree>(CALLS),
        Some("maps") => measure::<Maps>(CALLS),
        _ => {
            measure::<Maps>(CALLS);
            measure::<Tree>(CALLS);
        }
    }
}
