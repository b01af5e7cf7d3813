// Nets of threads that lock nests of mutexes, as tables of rows write them, and plain loops that list their minimal sets.
//
//     peer table TIMES      the nets, what the loops answer, and rows that measure the calls so many times
//     peer measure TIMES    how long the loops take, in nanoseconds
use std::env;
use std::hint::black_box;
use std::time::Instant;

/// What a thread does: nests of mutexes, each locked in order and unlocked from the last to the first.
type Thread = Vec<Vec<usize>>;

struct Case {
    name: &'static str,
    mutexes: usize,
    threads: Vec<Thread>,
    limit: usize,
}

#[derive(Clone, Copy)]
enum Op {
    Take(usize),
    Give(usize),
}

struct Edge {
    from: usize,
    to: usize,
    op: Op,
}

struct Net {
    mutexes: usize,
    points: usize,
    edges: Vec<Edge>,
    /// Per mutex the mutexes that are taken while it is held.
    arcs: Vec<u64>,
}

/// Each two mutexes in ascending order, and in descending order.
fn mesh(mutexes: usize) -> Vec<Thread> {
    let pairs = || (0..mutexes).flat_map(|i| (i + 1..mutexes).map(move |j| (i, j)));
    vec![pairs().map(|(i, j)| vec![i, j]).collect(), pairs().map(|(i, j)| vec![j, i]).collect()]
}

fn ring(mutexes: usize) -> Vec<Thread> {
    (0..mutexes).map(|i| vec![vec![i, (i + 1) % mutexes]]).collect()
}

/// All mutexes in ascending order, so many times, and in descending order.
fn chains(mutexes: usize, times: usize) -> Vec<Thread> {
    let up: Vec<usize> = (0..mutexes).collect();
    let down: Vec<usize> = (0..mutexes).rev().collect();
    vec![vec![up; times], vec![down; times]]
}

fn cases() -> Vec<Case> {
    let case = |name, mutexes, threads, limit| Case { name, mutexes, threads, limit };
    vec![
        case("mesh of 8", 8, mesh(8), 256),
        case("ring of 14", 14, ring(14), 256),
        case("mesh of 14", 14, mesh(14), 512),
        case("chains of 14", 14, chains(14, 1), 512),
        case("long chains of 14", 14, chains(14, 73), 512),
    ]
}

impl Net {
    fn new(case: &Case) -> Net {
        let mut net = Net { mutexes: case.mutexes, points: 0, edges: Vec::new(), arcs: vec![0; case.mutexes] };
        for nests in &case.threads {
            let mut held = 0u64;
            for nest in nests {
                for r in nest {
                    (0..case.mutexes).filter(|h| held >> h & 1 == 1).for_each(|h| net.arcs[h] |= 1 << r);
                    net.add(Op::Take(*r));
                    held |= 1 << r;
                }
                nest.iter().rev().for_each(|r| net.add(Op::Give(*r)));
                held = 0;
            }
            net.points += 1;
        }
        net
    }

    fn add(&mut self, op: Op) {
        self.edges.push(Edge { from: self.points, to: self.points + 1, op });
        self.points += 1;
    }

    fn words(&self) -> usize {
        (self.points + self.mutexes).div_ceil(64)
    }

    /// A least siphon, in sweeps over all edges until nothing is new.
    fn least_siphon(&self, set: u64, out: &mut [u64]) {
        out.fill(0);
        for r in (0..self.mutexes).filter(|r| set >> r & 1 == 1) {
            put(out, self.points + r);
        }
        let mut is_new = true;
        while is_new {
            is_new = false;
            for e in self.edges.iter().rev() {
                let leads = match e.op {
                    Op::Give(r) => set >> r & 1 == 1 || has(out, e.to),
                    Op::Take(r) => set >> r & 1 == 0 && has(out, e.to),
                };
                if leads && !has(out, e.from) {
                    put(out, e.from);
                    is_new = true;
                }
            }
        }
    }

    /// What is reached from a mutex inside the set.
    fn reached(&self, from: usize, set: u64) -> u64 {
        let mut seen = self.arcs[from] & set;
        loop {
            let next = (0..self.mutexes).filter(|r| seen >> r & 1 == 1).fold(seen, |all, r| all | self.arcs[r] & set);
            if next == seen {
                return seen;
            }
            seen = next;
        }
    }

    fn is_candidate(&self, set: u64) -> bool {
        (0..self.mutexes).filter(|r| set >> r & 1 == 1).all(|r| self.reached(r, set) == set)
    }

    /// The minimal sets by size and then as numbers, one more than the limit at most.
    fn minimal_sets(&self, limit: usize) -> Vec<u64> {
        let mut sets: Vec<u64> = Vec::new();
        let mut rows: Vec<Vec<u64>> = Vec::new();
        let mut row = vec![0; self.words()];
        for size in 1..=self.mutexes as u32 {
            let masks = (1u64..1 << self.mutexes).filter(|set| set.count_ones() == size);
            for set in masks.filter(|set| self.is_candidate(*set)) {
                self.least_siphon(set, &mut row);
                let mut kept = sets.iter().zip(&rows);
                if kept.any(|(one, other)| one & !set == 0 && other.iter().zip(&row).all(|(a, b)| a & !b == 0)) {
                    continue;
                }
                sets.push(set);
                rows.push(row.clone());
                if sets.len() > limit {
                    return sets;
                }
            }
        }
        sets
    }
}

fn put(row: &mut [u64], place: usize) {
    row[place / 64] |= 1 << (place % 64);
}

fn has(row: &[u64], place: usize) -> bool {
    row[place / 64] >> (place % 64) & 1 == 1
}

fn words<'a>(members: impl IntoIterator<Item = &'a usize>) -> String {
    let words: Vec<String> = members.into_iter().map(|r| r.to_string()).collect();
    words.join(" ")
}

fn written(thread: &Thread) -> String {
    let nests: Vec<String> = thread.iter().map(words).collect();
    nests.join(", ")
}

fn answer(net: &Net, limit: usize) -> String {
    let sets = net.minimal_sets(limit);
    let names: Vec<Vec<usize>> =
        sets.iter().take(limit).map(|set| (0..net.mutexes).filter(|r| set >> r & 1 == 1).collect()).collect();
    let names: Vec<String> = names.iter().map(words).collect();
    let front = if sets.len() > limit { format!("more than {limit}: ") } else { String::new() };
    front + &names.join("; ")
}

fn table(times: u32) {
    for case in cases() {
        let net = Net::new(&case);
        let threads: Vec<String> = case.threads.iter().map(written).collect();
        println!("# {}: {} points.", case.name, net.points);
        println!("locks {} ~ {}", case.mutexes, threads.join(" ~ "));
        println!("minimal {} ~ {}", case.limit, answer(&net, case.limit));
        println!("measure {times} minimal {}", case.limit);
    }
}

fn measure(times: u32) {
    for case in cases() {
        let net = Net::new(&case);
        let start = Instant::now();
        for _ in 0..times {
            black_box(net.minimal_sets(black_box(case.limit)));
        }
        println!("{}: {} ns", case.name, start.elapsed().as_nanos() / u128::from(times));
    }
}

fn main() {
    let words: Vec<String> = env::args().collect();
    let times = words.get(2).and_then(|word| word.parse().ok()).unwrap_or(1);
    match words.get(1).map(String::as_str) {
        Some("table") => table(times),
        Some("measure") => measure(times),
        _ => eprintln!("peer table TIMES | peer measure TIMES"),
    }
}
