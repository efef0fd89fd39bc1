//! A yardstick: the same filter in plain Rust, written apart from the crates and sharing no code with them.
//!
//!     plain make LINES OPTIONS JOINED TIGHT SEED > FILE
//!     plain filter FILE RUNS
//!
//! `make` writes a random wall: JOINED per cent of all pairs of lines have a rule, and each rule forbids
//! TIGHT per cent of the pairs of options, chosen by a generator that starts at SEED. `filter` filters by
//! queue at singleton over arc, with trials by rounds, and prints what is left and the least time of a run
//! in microseconds. The file and the output are as those of the program `timing`.

use std::collections::VecDeque;
use std::time::Instant;

/// For each line its neighbours, each with a word for every option of the line: the options of the
/// neighbour that go with it.
struct Wall {
    options: usize,
    near: Vec<Vec<(usize, Vec<u64>)>>,
}

impl Wall {
    fn read(text: &str) -> Wall {
        let mut numbers = text.split_ascii_whitespace().map(|w| w.parse::<u64>().expect("a number"));
        let mut next = || numbers.next().expect("one more number");
        let (lines, options, rules) = (next() as usize, next() as usize, next() as usize);
        let mut near = vec![Vec::new(); lines];
        for _ in 0..rules {
            let (first, second) = (next() as usize, next() as usize);
            let there: Vec<u64> = (0..options).map(|_| next()).collect();
            let back = (0..options).map(|b| (0..options).map(|a| (there[a] >> b & 1) << a).sum()).collect();
            near[first].push((second, there));
            near[second].push((first, back));
        }
        Wall { options, near }
    }

    fn all(&self) -> Vec<u64> {
        vec![u64::MAX >> (64 - self.options); self.near.len()]
    }

    /// Arc: every neighbour has an option that goes with this one.
    fn arc(&self, set: &[u64], line: usize, option: usize) -> bool {
        self.near[line].iter().all(|(j, words)| words[option] & set[*j] != 0)
    }

    /// By rounds at arc; false if there is no plan.
    fn rounds(&self, set: &mut [u64]) -> bool {
        if set.contains(&0) {
            return false;
        }
        loop {
            let mut struck = false;
            for line in 0..set.len() {
                for option in 0..self.options {
                    if set[line] >> option & 1 == 1 && !self.arc(set, line, option) {
                        set[line] &= !(1 << option);
                        struck = true;
                        if set[line] == 0 {
                            return false;
                        }
                    }
                }
            }
            if !struck {
                return true;
            }
        }
    }

    /// Singleton over arc: the line held to the option, on a copy.
    fn singleton(&self, set: &[u64], line: usize, option: usize) -> bool {
        let mut copy = [0; 128];
        let trial = &mut copy[..set.len()];
        trial.copy_from_slice(set);
        trial[line] = 1 << option;
        self.rounds(trial)
    }

    /// By queue at singleton over arc; false if there is no plan.
    fn queue(&self, set: &mut [u64]) -> bool {
        if set.contains(&0) {
            return false;
        }
        let mut queue: VecDeque<usize> = (0..set.len()).collect();
        let mut waits = vec![true; set.len()];
        while let Some(line) = queue.pop_front() {
            waits[line] = false;
            let mut struck = false;
            for option in 0..self.options {
                if set[line] >> option & 1 == 1 && !self.singleton(set, line, option) {
                    set[line] &= !(1 << option);
                    struck = true;
                    if set[line] == 0 {
                        return false;
                    }
                }
            }
            if struck {
                for other in 0..set.len() {
                    if other != line && !waits[other] {
                        waits[other] = true;
                        queue.push_back(other);
                    }
                }
            }
        }
        true
    }
}

fn filter(file: &str, runs: u32) {
    let wall = Wall::read(&std::fs::read_to_string(file).expect("a file"));
    let mut least = u128::MAX;
    let mut set = Vec::new();
    let mut settled = false;
    for _ in 0..runs {
        set = wall.all();
        let start = Instant::now();
        settled = wall.queue(&mut set);
        least = least.min(start.elapsed().as_micros());
    }
    if !settled {
        set.fill(0);
    }
    let left: u32 = set.iter().map(|w| w.count_ones()).sum();
    println!("{}, {left} options left", if settled { "settled" } else { "no plan" });
    for word in &set {
        print!("{word:x} ");
    }
    println!("\n{least}");
}

/// Random numbers by splitmix64.
struct Random(u64);

impl Random {
    fn below(&mut self, n: usize) -> usize {
        self.0 = self.0.wrapping_add(0x9e3779b97f4a7c15);
        let mut z = self.0;
        z = (z ^ (z >> 30)).wrapping_mul(0xbf58476d1ce4e5b9);
        z = (z ^ (z >> 27)).wrapping_mul(0x94d049bb133111eb);
        ((z ^ (z >> 31)) % n as u64) as usize
    }

    /// So many of all items, in their order.
    fn some<T: Copy>(&mut self, all: &[T], count: usize) -> Vec<T> {
        let mut chosen = Vec::new();
        for (at, item) in all.iter().enumerate() {
            if self.below(all.len() - at) < count - chosen.len() {
                chosen.push(*item);
            }
        }
        chosen
    }
}

fn pairs(n: usize, m: usize) -> impl Iterator<Item = (usize, usize)> {
    (0..n).flat_map(move |i| (0..m).map(move |j| (i, j)))
}

fn make(lines: usize, options: usize, joined: usize, tight: usize, seed: u64) {
    let mut random = Random(seed);
    let all: Vec<_> = pairs(lines, lines).filter(|(i, j)| i < j).collect();
    let rules = random.some(&all, all.len() * joined / 100);
    println!("{lines} {options} {}", rules.len());
    let cells: Vec<_> = pairs(options, options).collect();
    for (first, second) in rules {
        let mut words = vec![u64::MAX >> (64 - options); options];
        for (a, b) in random.some(&cells, cells.len() * tight / 100) {
            words[a] &= !(1 << b);
        }
        let text: Vec<String> = words.iter().map(u64::to_string).collect();
        println!("{first} {second} {}", text.join(" "));
    }
}

fn main() {
    let words: Vec<String> = std::env::args().skip(1).collect();
    let number = |k: usize| words[k].parse::<usize>().expect("a number");
    match words.first().map(String::as_str) {
        Some("make") if words.len() == 6 => make(number(1), number(2), number(3), number(4), number(5) as u64),
        Some("filter") if words.len() == 3 => filter(&words[1], number(2) as u32),
        _ => eprintln!("usage: plain make LINES OPTIONS JOINED TIGHT SEED | plain filter FILE RUNS"),
    }
}
