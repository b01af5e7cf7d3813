// A large net, as a table of rows writes it, and plain loops over it to measure beside the calls.
//
//     peer table TIMES      the net, what the loops answer, and rows that measure the calls so many times
//     peer measure TIMES    how long the loops take, in nanoseconds
use std::env;
use std::hint::black_box;
use std::time::Instant;

const THREADS: usize = 31;
const BLOCKS: usize = 11;
const MUTEXES: usize = 48;
const RESOURCES: usize = 64;
const POINTS: usize = 4096;

#[derive(Clone, Copy, PartialEq)]
enum Op {
    Plain,
    Take(usize),
    Give(usize),
}

struct Edge {
    from: usize,
    to: usize,
    op: Op,
}

struct Point {
    thread: usize,
    held: [u32; RESOURCES],
}

#[derive(Debug)]
enum Kind {
    Thread(usize),
    Guard(usize),
    Monitor(usize),
}

struct Net {
    tokens: [u32; RESOURCES],
    points: Vec<Point>,
    edges: Vec<Edge>,
    /// Of each point the resources that it holds.
    holds: Vec<u64>,
    /// Of each point those that edges along which weights are moved lead from.
    before: Vec<Vec<u32>>,
}

/// A block of twelve points: a monitor is taken and then two mutexes, and all are given back.
fn add_block(net: &mut Net, thread: usize, number: usize) {
    let s = net.points.len();
    let next = thread * BLOCKS * 12 + (number + 1) % BLOCKS * 12;
    let outer = (thread * 7 + number * 5) % MUTEXES;
    let inner = (outer + 1 + (thread + number) % 47) % MUTEXES;
    let all = [MUTEXES + (thread + number) % 16, outer, inner];
    for count in [0, 0, 1, 2, 3, 3, 3, 3, 3, 2, 1, 0] {
        let mut held = [0; RESOURCES];
        all[..count].iter().for_each(|r| held[*r] = 1);
        net.points.push(Point { thread, held });
    }
    let mut add = |from, to, op| net.edges.push(Edge { from, to, op });
    for (k, r) in all.into_iter().enumerate() {
        add(s + 1 + k, s + 2 + k, Op::Take(r));
        add(s + 10 - k, s + 11 - k, Op::Give(r));
    }
    for to in [s + 1, s + 11, next] {
        add(s, to, Op::Plain);
    }
    for k in 4..8 {
        for to in [k + 1, (k + 2) % 8, (k + 3) % 8] {
            add(s + k, s + to.max(4), Op::Plain);
        }
    }
    for to in [next, s, s + 11] {
        add(s + 11, to, Op::Plain);
    }
}

fn large_net() -> Net {
    let tokens = std::array::from_fn(|r| if r < MUTEXES { 1 } else { 2 });
    let (holds, before) = (Vec::new(), vec![Vec::new(); POINTS]);
    let mut net = Net { tokens, points: Vec::new(), edges: Vec::new(), holds, before };
    for thread in 0..THREADS {
        for number in 0..BLOCKS {
            add_block(&mut net, thread, number);
        }
    }
    while net.points.len() < POINTS {
        net.points.push(Point { thread: THREADS - 1, held: [0; RESOURCES] });
    }
    net.edges.sort_by_key(|e| e.from);
    for p in &net.points {
        net.holds.push((0..RESOURCES).filter(|r| p.held[*r] > 0).map(|r| 1 << r).sum());
    }
    for e in net.edges.iter().filter(|e| !matches!(e.op, Op::Take(_))) {
        net.before[e.to].push(e.from as u32);
    }
    net
}

fn has(set: u64, r: usize) -> bool {
    set >> r & 1 == 1
}

impl Net {
    /// The points of a least siphon, in sweeps over all edges until nothing is new.
    fn least_siphon(&self, set: u64, out: &mut [bool]) {
        for (p, member) in out.iter_mut().enumerate() {
            *member = p >= POINTS && has(set, p - POINTS);
        }
        let mut is_new = true;
        while is_new {
            is_new = false;
            for e in self.edges.iter().rev() {
                let leads = match e.op {
                    Op::Give(r) => has(set, r) || out[e.to],
                    Op::Take(r) => !has(set, r) && out[e.to],
                    Op::Plain => out[e.to],
                };
                if leads && !out[e.from] {
                    out[e.from] = true;
                    is_new = true;
                }
            }
        }
    }

    fn sum(&self, set: u64, counts: &[u32; RESOURCES]) -> u64 {
        (0..RESOURCES).filter(|r| has(set, *r)).map(|r| u64::from(counts[r])).sum()
    }

    fn holds(&self, set: u64, siphon: &[bool], bound: impl Fn(&Point) -> u64) -> bool {
        let mut outside = self.points.iter().zip(siphon).filter(|(_, inside)| !**inside);
        outside.all(|(p, _)| self.sum(set, &p.held) <= bound(p))
    }

    fn first_line(&self, set: u64, scratch: &mut [bool]) -> Option<Kind> {
        self.least_siphon(set, scratch);
        let tokens = self.sum(set, &self.tokens);
        for i in 0..THREADS {
            if self.holds(set, scratch, |p| if p.thread == i { tokens - 1 } else { 0 }) {
                return Some(Kind::Thread(i));
            }
        }
        for g in 0..RESOURCES {
            if self.tokens[g] == 1 && self.holds(set, scratch, |p| (tokens - 1) * u64::from(p.held[g])) {
                return Some(Kind::Guard(g));
            }
        }
        for c in MUTEXES..RESOURCES {
            if u64::from(self.tokens[c]) < tokens && self.holds(set, scratch, |p| u64::from(p.held[c])) {
                return Some(Kind::Monitor(c));
            }
        }
        None
    }
}

impl Net {
    /// The weight of each point: what it holds of the set, and one less in the set's least siphon.
    fn weights(&self, set: u64, siphon: &mut [bool]) -> Vec<u64> {
        self.least_siphon(set, siphon);
        let mut weights = vec![0; POINTS];
        for (p, weight) in weights.iter_mut().enumerate() {
            let mut held = self.holds[p] & set;
            while held != 0 {
                *weight += u64::from(self.points[p].held[held.trailing_zeros() as usize]);
                held &= held - 1;
            }
            *weight -= u64::from(siphon[p]);
        }
        weights
    }

    /// The moved weights: from the greatest weight on, each goes back as far as numbers are lower.
    fn moved(&self, weights: &[u64]) -> Vec<u64> {
        let mut moved = vec![0; POINTS];
        let mut order: Vec<(u64, u32)> = (0..).zip(weights).map(|(p, w)| (*w, p)).filter(|x| x.0 > 0).collect();
        order.sort_unstable_by(|a, b| b.cmp(a));
        let mut todo = Vec::new();
        for (weight, point) in order {
            todo.push(point);
            while let Some(p) = todo.pop() {
                if moved[p as usize] < weight {
                    moved[p as usize] = weight;
                    todo.extend(&self.before[p as usize]);
                }
            }
        }
        moved
    }
}

/// Sets of two mutexes with no line, of a mutex and a monitor with a line of another kind than the first, and of 14
/// and of all resources.
const SETS: [u64; 4] = [1 << 1 | 1 << 17, 1 << 1 | 1 << 53, 0x3fff, u64::MAX];

fn words(set: u64) -> String {
    let members: Vec<String> = (0..RESOURCES).filter(|r| has(set, *r)).map(|r| r.to_string()).collect();
    members.join(" ")
}

fn written(p: &Point) -> String {
    let held = (0..RESOURCES).filter(|r| p.held[*r] > 0).map(|r| format!(" {r}:{}", p.held[r]));
    format!(" {} 1{}", p.thread, held.collect::<String>())
}

fn written_edge(e: &Edge) -> String {
    match e.op {
        Op::Plain => format!(" ~ plain {}", e.to),
        Op::Take(r) => format!(" ~ acquire {r} {}", e.to),
        Op::Give(r) => format!(" ~ release {r} {}", e.to),
    }
}

/// A first line and it as a general line, as the rows write them.
fn answer(net: &Net, set: u64, line: Option<Kind>) -> String {
    let rest = net.sum(set, &net.tokens) - 1;
    match line {
        None => "none".to_string(),
        Some(Kind::Thread(i)) if rest > 0 => format!("thread {i}; times 1, thread {i} {rest}"),
        Some(Kind::Guard(g)) if rest > 0 => format!("guard {g}; times 1, resource {g} {rest}"),
        Some(Kind::Monitor(c)) => format!("monitor {c}; times 1, resource {c} 1"),
        Some(Kind::Thread(i)) => format!("thread {i}; times 1"),
        Some(Kind::Guard(g)) => format!("guard {g}; times 1"),
    }
}

fn written_numbers(numbers: &[u64]) -> String {
    let above = (0..).zip(numbers).filter(|x| *x.1 > 0);
    let words: String = above.map(|(p, number): (usize, _)| format!(" {p}:{number}")).collect();
    if words.is_empty() { " none".to_string() } else { words }
}

fn table(net: &Net, times: u32) {
    let monitors = vec!["2"; RESOURCES - MUTEXES].join(" ");
    println!("# {} points, {} edges.", net.points.len(), net.edges.len());
    println!("net {THREADS} {MUTEXES} {monitors}");
    for (k, p) in net.points.iter().enumerate() {
        let edges = net.edges.iter().filter(|e| e.from == k).map(written_edge);
        println!("{}{}", written(p), edges.collect::<String>());
    }
    let mut siphon = vec![false; POINTS + RESOURCES];
    for set in SETS {
        let line = net.first_line(set, &mut siphon);
        let places = (0..siphon.len()).filter(|p| siphon[*p]);
        let places = places.map(|p| if p < POINTS { format!(" {p}") } else { format!(" r{}", p - POINTS) });
        println!("siphon {} ~{}", words(set), places.collect::<String>());
        println!("first {} ~ {}", words(set), answer(net, set, line));
        let weights = net.weights(set, &mut siphon);
        println!("weights {} ~{}", words(set), written_numbers(&weights));
        println!("moved {} ~{}", words(set), written_numbers(&net.moved(&weights)));
        for call in ["siphon", "first", "weights", "moved"] {
            println!("measure {times} {call} {}", words(set));
        }
    }
}

fn measure(net: &Net, times: u32) {
    let mut siphon = vec![false; POINTS + RESOURCES];
    for set in SETS {
        let start = Instant::now();
        for _ in 0..times {
            net.least_siphon(black_box(set), &mut siphon);
        }
        println!("siphon {}: {} ns", words(set), start.elapsed().as_nanos() / u128::from(times));
        let start = Instant::now();
        for _ in 0..times {
            black_box(net.first_line(black_box(set), &mut siphon));
        }
        println!("first {}: {} ns", words(set), start.elapsed().as_nanos() / u128::from(times));
        let start = Instant::now();
        for _ in 0..times {
            black_box(net.weights(black_box(set), &mut siphon));
        }
        println!("weights {}: {} ns", words(set), start.elapsed().as_nanos() / u128::from(times));
        let weights = net.weights(set, &mut siphon);
        let start = Instant::now();
        for _ in 0..times {
            black_box(net.moved(black_box(&weights)));
        }
        println!("moved {}: {} ns", words(set), start.elapsed().as_nanos() / u128::from(times));
    }
}

fn main() {
    let words: Vec<String> = env::args().collect();
    let times = words.get(2).and_then(|word| word.parse().ok()).unwrap_or(1);
    match words.get(1).map(String::as_str) {
        Some("table") => table(&large_net(), times),
        Some("measure") => measure(&large_net(), times),
        _ => eprintln!("peer table TIMES | peer measure TIMES"),
    }
}
