//! All ranks of the description on the standard input, run to rest in plain Rust: `once` in an order of this program's own, `sim X` in
//! the order that the words of a generator choose. Counters and bytes are one vector each, and a rank is a row in them.

mod plain;

use plain::{Cell, Description, ElemType, Kind, Link, Op, Out, Plan, Words, compile, done, read};
use std::collections::VecDeque;

/// A step of one rank.
#[derive(Clone, Copy)]
enum Step {
    Start,
    Receive(u32),
    Answer(u32),
    Fire(u32),
}

/// A triggered operation.
#[derive(Clone, Copy)]
enum Work {
    Along(u32),
    Tell(u32),
}

/// Messages on their way from one rank to another: the links, and their bytes one after the other.
#[derive(Default)]
struct Lane {
    links: VecDeque<u32>,
    bytes: VecDeque<u8>,
    answers: u32,
}

/// All ranks.
struct World<'a> {
    plan: &'a Plan,
    /// Where each cell begins in the memory.
    starts: Vec<usize>,
    memory: Vec<u8>,
    counters: Vec<u64>,
    done: Vec<u64>,
    started: Vec<bool>,
    /// For each rank the cells that messages came to before its start.
    early: Vec<Vec<u32>>,
    /// The operations, rank by rank, and where each rank's begin.
    works: Vec<Work>,
    first: Vec<u32>,
    /// For each cell its links, and where they stand among the operations.
    out_at: Vec<u32>,
    outs: Vec<u32>,
    tell: Vec<u32>,
    /// By source and target.
    lanes: Vec<Lane>,
    histories: Vec<Vec<Step>>,
    /// Operations that became ready, and lanes that are no longer empty, each with whether it is the answers'.
    ready: VecDeque<u32>,
    filled: Vec<(u32, bool)>,
}

fn add(ty: ElemType, cell: &mut [u8], bytes: impl Iterator<Item = u8>) {
    let size = ty.size();
    let mut bytes = bytes;
    for element in cell.chunks_exact_mut(size) {
        let (mut a, mut b) = ([0u8; 8], [0u8; 8]);
        a[..size].copy_from_slice(element);
        for x in &mut b[..size] {
            *x = bytes.next().unwrap();
        }
        let sum = u64::from_le_bytes(a).wrapping_add(u64::from_le_bytes(b));
        element.copy_from_slice(&sum.to_le_bytes()[..size]);
    }
}

impl<'a> World<'a> {
    fn open(d: &Description, plan: &'a Plan) -> World<'a> {
        let (n, cells, links) = (plan.ranks as usize, &plan.cells, &plan.links);
        let mut starts = Vec::with_capacity(cells.len());
        let mut end = 0;
        for cell in cells {
            starts.push(end);
            end += cell.length as usize;
        }
        let mut memory = vec![0; end];
        for (i, bytes) in d.inputs.iter().enumerate() {
            memory[starts[n + i]..][..bytes.len()].copy_from_slice(bytes);
        }
        let rank = |c: u32| cells[c as usize].rank as usize;
        // The operations of each rank: its links, and then its cells.
        let mut first = vec![0u32; n + 1];
        for l in links {
            first[rank(l.source) + 1] += 1;
        }
        for c in cells {
            first[c.rank as usize + 1] += 1;
        }
        for r in 0..n {
            first[r + 1] += first[r];
        }
        let mut next = first.clone();
        let mut works = vec![Work::Tell(0); cells.len() + links.len()];
        let mut out_at = vec![0u32; cells.len() + 1];
        for l in links {
            out_at[l.source as usize + 1] += 1;
        }
        for c in 0..cells.len() {
            out_at[c + 1] += out_at[c];
        }
        let mut outs = vec![0u32; links.len()];
        let mut out_next = out_at.clone();
        for (l, link) in links.iter().enumerate() {
            let at = &mut next[rank(link.source)];
            works[*at as usize] = Work::Along(l as u32);
            let out = &mut out_next[link.source as usize];
            outs[*out as usize] = *at;
            *out += 1;
            *at += 1;
        }
        let tell = (0..cells.len())
            .map(|c| {
                let at = &mut next[cells[c].rank as usize];
                works[*at as usize] = Work::Tell(c as u32);
                *at += 1;
                *at - 1
            })
            .collect();
        let mut lanes = Vec::new();
        lanes.resize_with(n * n, Lane::default);
        World {
            plan,
            starts,
            memory,
            counters: vec![0; cells.len()],
            done: vec![0; n],
            started: vec![false; n],
            early: vec![vec![]; n],
            works,
            first,
            out_at,
            outs,
            tell,
            lanes,
            histories: vec![vec![]; n],
            ready: VecDeque::new(),
            filled: vec![],
        }
    }
    fn count(&mut self, c: u32) {
        let c = c as usize;
        self.counters[c] += 1;
        if self.counters[c] == self.plan.cells[c].needs {
            self.ready
                .extend(&self.outs[self.out_at[c] as usize..self.out_at[c + 1] as usize]);
            self.ready.push_back(self.tell[c]);
        }
    }
    fn start(&mut self, r: u32) {
        self.histories[r as usize].push(Step::Start);
        self.started[r as usize] = true;
        for c in std::mem::take(&mut self.early[r as usize]) {
            self.count(c);
        }
        self.count(r);
    }
    fn deliver(&mut self, lane: u32, answer: bool) {
        let n = self.plan.ranks;
        let (source, target) = (lane / n, lane % n);
        if answer {
            self.lanes[lane as usize].answers -= 1;
            self.histories[target as usize].push(Step::Answer(source));
            self.done[target as usize] += 1;
            return;
        }
        let link = self.plan.links[self.lanes[lane as usize].links.pop_front().unwrap() as usize];
        self.receive(&link, lane);
        self.histories[target as usize].push(Step::Receive(source));
        if self.started[target as usize] {
            self.count(link.target);
        } else {
            self.early[target as usize].push(link.target);
        }
        if self.plan.remote {
            let back = &mut self.lanes[(target * n + source) as usize];
            back.answers += 1;
            if back.answers == 1 {
                self.filled.push((target * n + source, true));
            }
        }
    }
    fn receive(&mut self, link: &Link, lane: u32) {
        let Cell { ty, op, .. } = self.plan.cells[link.target as usize];
        let at = self.starts[link.target as usize] + link.target_offset as usize;
        let cell = &mut self.memory[at..at + link.length as usize];
        let bytes = self.lanes[lane as usize]
            .bytes
            .drain(..link.length as usize);
        match op {
            Some(Op::Sum) => add(ty, cell, bytes),
            None => {
                for (to, byte) in cell.iter_mut().zip(bytes) {
                    *to = byte;
                }
            }
            Some(_) => unimplemented!("sums alone"),
        }
    }
    fn fire(&mut self, work: u32) {
        match self.works[work as usize] {
            Work::Tell(c) => {
                let r = self.plan.cells[c as usize].rank as usize;
                self.histories[r].push(Step::Fire(work - self.first[r]));
                self.done[r] += 1;
            }
            Work::Along(l) => {
                let link = self.plan.links[l as usize];
                let r = self.plan.cells[link.source as usize].rank;
                self.histories[r as usize].push(Step::Fire(work - self.first[r as usize]));
                if link.kind == Kind::Bump {
                    self.count(link.target);
                } else {
                    self.send(l, &link, r);
                }
            }
        }
    }
    fn send(&mut self, l: u32, link: &Link, r: u32) {
        let at = self.starts[link.source as usize] + link.source_offset as usize;
        let lane = r * self.plan.ranks + self.plan.cells[link.target as usize].rank;
        let wire = &mut self.lanes[lane as usize];
        wire.bytes
            .extend(&self.memory[at..at + link.length as usize]);
        wire.links.push_back(l);
        if wire.links.len() == 1 {
            self.filled.push((lane, false));
        }
    }
    fn is_empty(&self, lane: u32, answer: bool) -> bool {
        let lane = &self.lanes[lane as usize];
        if answer {
            lane.answers == 0
        } else {
            lane.links.is_empty()
        }
    }
    fn once(&mut self) {
        for r in 0..self.plan.ranks {
            self.start(r);
        }
        loop {
            if let Some(work) = self.ready.pop_front() {
                self.fire(work);
            } else if let Some((lane, answer)) = self.filled.pop() {
                while !self.is_empty(lane, answer) {
                    self.deliver(lane, answer);
                }
            } else {
                break;
            }
        }
    }
    fn sim(&mut self, mut words: Words) {
        let n = self.plan.ranks;
        let mut starts = Marks::new(n as usize);
        let mut lanes = Marks::new(2 * self.lanes.len());
        let mut works = Marks::new(self.works.len());
        for r in 0..n {
            starts.set(r, true);
        }
        loop {
            let (s, d, f) = (starts.count, lanes.count, works.count);
            if s + d + f == 0 {
                break;
            }
            let i = words.next() % (s + d + f);
            if i < s {
                let r = starts.find(i);
                starts.set(r, false);
                self.start(r);
            } else if i < s + d {
                let at = lanes.find(i - s);
                self.deliver(at / 2, at % 2 == 1);
                if self.is_empty(at / 2, at % 2 == 1) {
                    lanes.set(at, false);
                }
            } else {
                let work = works.find(i - s - d);
                works.set(work, false);
                self.fire(work);
            }
            for work in self.ready.drain(..) {
                works.set(work, true);
            }
            for (lane, answer) in self.filled.drain(..) {
                lanes.set(2 * lane + u32::from(answer), true);
            }
        }
    }
}

/// Which of so many things are marked, in a tree of counts.
struct Marks {
    counts: Vec<u32>,
    leaves: usize,
    count: u32,
}

impl Marks {
    fn new(things: usize) -> Marks {
        let leaves = things.next_power_of_two();
        Marks {
            counts: vec![0; leaves + 1],
            leaves,
            count: 0,
        }
    }
    fn set(&mut self, thing: u32, marked: bool) {
        let mut at = thing as usize + 1;
        while at <= self.leaves {
            self.counts[at] = if marked {
                self.counts[at] + 1
            } else {
                self.counts[at] - 1
            };
            at += at & at.wrapping_neg();
        }
        self.count = if marked {
            self.count + 1
        } else {
            self.count - 1
        };
    }
    /// The i-th of the marked things.
    fn find(&self, mut i: u32) -> u32 {
        if self.leaves == 1 {
            return 0;
        }
        let (mut at, mut width) = (0, self.leaves / 2);
        while width > 0 {
            if self.counts[at + width] <= i {
                i -= self.counts[at + width];
                at += width;
            }
            width /= 2;
        }
        at as u32
    }
}

fn write_results(d: &Description, world: &World, out: &mut Out) {
    for &b in &d.prints {
        let (name, ty) = (&d.buffers[b].name, d.buffers[b].ty);
        for r in 0..d.ranks {
            out.bytes(name);
            out.next(u64::from(r));
            if let Some(c) = world.plan.held[b][r as usize] {
                let at = world.starts[c as usize];
                for element in world.memory[at..at + world.plan.cells[c as usize].length as usize]
                    .chunks_exact(ty.size())
                {
                    let mut bytes = [0; 8];
                    bytes[..ty.size()].copy_from_slice(element);
                    out.next(u64::from_le_bytes(bytes));
                }
            }
            out.bytes(b"\n");
        }
    }
    out.bytes(b"rest\n");
}

fn write_orders(world: &World, out: &mut Out) {
    for (r, history) in world.histories.iter().enumerate() {
        out.bytes(b"order");
        out.next(r as u64);
        for step in history {
            match *step {
                Step::Start => out.bytes(b" s"),
                Step::Receive(source) => {
                    out.bytes(b" r");
                    out.number(u64::from(source));
                }
                Step::Answer(source) => {
                    out.bytes(b" a");
                    out.number(u64::from(source));
                }
                Step::Fire(number) => {
                    out.bytes(b" f");
                    out.number(u64::from(number));
                }
            }
        }
        out.bytes(b"\n");
    }
}

fn main() {
    let words: Vec<String> = std::env::args().skip(1).collect();
    let seed = words.get(1).map(|word| word.parse().unwrap());
    let d = read();
    let plan = compile(&d);
    let mut world = World::open(&d, &plan);
    match seed {
        Some(seed) => world.sim(Words::seeded(seed)),
        None => world.once(),
    }
    assert_eq!(world.done, done(&plan));
    let mut out = Out::new();
    write_results(&d, &world, &mut out);
    if seed.is_some() {
        write_orders(&world, &mut out);
    }
    out.flush();
}
