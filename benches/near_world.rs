//! All ranks of the description on the standard input, each on an interface of its own, run to rest in plain Rust: `once` makes the first
//! of the steps that are possible, `sim X` the one that the next word of a generator names, by the rules of docs/PLANS.md.

mod near_interface;
mod near_marks;
#[cfg(test)]
mod near_tests;
mod plain;

use near_interface::{
    Chain, Count, Deed, Entry, Interface, Limits, Message, NONE, Send, Unexpected, combine,
};
use near_marks::{Counts, Marks};
use plain::{Cell, Description, ElemType, Kind, Link, Op, Out, Plan, Words, compile, done, read};

/// The portal table index and the descriptor that plans use.
const INDEX: u32 = 0;
const REGION: u32 = 0;

/// The counting event of what is done at a rank, and that of its cell number `i`.
const DONE: u32 = 0;

fn counter_of(i: usize) -> u32 {
    i as u32 + 1
}

/// The class of the messages to a cell.
fn class_of(cell: &Cell) -> usize {
    cell.op
        .map_or(0, |op| 1 + 8 * op as usize + cell.ty as usize)
}

/// The operation and the type of a class.
fn class_operation(class: usize) -> Option<(Op, ElemType)> {
    (class > 0).then(|| (Op::ALL[(class - 1) / 8], ElemType::ALL[(class - 1) % 8]))
}

/// The match bits of a class: job 1.
fn class_bits(class: usize) -> u64 {
    1 << 48 | (class as u64) << 40
}

fn match_bits(c: u32, cell: &Cell) -> u64 {
    class_bits(class_of(cell)) | u64::from(c) << 16
}

/// A step of one rank.
#[derive(Clone, Copy)]
enum Local {
    Start,
    Receive { source: u32, answer: bool },
    Fire(u32),
}

/// Messages that are on their way, each at a place, and the places that are free. A place keeps the room of its bytes.
struct Mail {
    messages: Vec<Message>,
    next: Vec<u32>,
    free: u32,
    /// By source, target, and whether they are answers: the first message and the last one.
    lanes: Vec<Chain>,
}

impl Mail {
    fn new(ranks: u32) -> Mail {
        Mail {
            messages: vec![],
            next: vec![],
            free: NONE,
            lanes: vec![Chain::EMPTY; 2 * ranks as usize * ranks as usize],
        }
    }
    /// A place that is free until something is pushed there.
    fn room(&mut self) -> u32 {
        if self.free == NONE {
            self.free = self.messages.len() as u32;
            self.messages.push(Message::EMPTY);
            self.next.push(NONE);
        }
        self.free
    }
    /// The message that was filled in at the free place goes to the end of a lane. Whether it is the only one there.
    fn push(&mut self, lane: u32) -> bool {
        let at = self.free;
        self.free = std::mem::replace(&mut self.next[at as usize], NONE);
        let lane = &mut self.lanes[lane as usize];
        let alone = lane.first == NONE;
        if alone {
            lane.first = at;
        } else {
            self.next[lane.last as usize] = at;
        }
        lane.last = at;
        alone
    }
    /// The first message of a lane leaves it; its place isn't free yet.
    fn pop(&mut self, lane: u32) -> u32 {
        let lane = &mut self.lanes[lane as usize];
        let at = lane.first;
        lane.first = self.next[at as usize];
        at
    }
    fn give_back(&mut self, at: u32) {
        self.next[at as usize] = self.free;
        self.free = at;
    }
}

/// A rank: its interface, the cells that lie on it, and the steps that it made.
struct Node {
    interface: Interface,
    cells: Vec<u32>,
    history: Vec<Local>,
}

impl Node {
    /// What came early is brought into the cells, their entries are linked, and the go cell counts.
    fn start(&mut self, cells: &[Cell]) {
        let mut start = 0;
        for (i, &c) in self.cells.iter().enumerate() {
            let cell = &cells[c as usize];
            let entry = Entry {
                counter: counter_of(i),
                allow_put: true,
                no_truncate: true,
                count_comm: true,
                count_overflow: true,
                ..Entry::over(start, cell.length as u32, match_bits(c, cell), 0xffff)
            };
            for u in 0..self.interface.headers(INDEX).len() {
                bring(&mut self.interface, cell, &entry, u);
            }
            self.interface.append(INDEX, false, entry);
            start += cell.length as u32;
        }
        self.interface.count(counter_of(0), Count::SUCCESS);
        self.history.push(Local::Start);
    }
}

/// What an unexpected header brought goes into a cell, if the cell's entry finds it.
fn bring(interface: &mut Interface, cell: &Cell, entry: &Entry, u: usize) {
    let Unexpected {
        header,
        place,
        delivered,
    } = interface.headers(INDEX)[u];
    let fits = header.offset + delivered <= entry.length;
    if !entry.matches(&header) || !fits || delivered == 0 {
        return;
    }
    // The areas stand behind the cells.
    let (cells, areas) = interface.memory_mut().split_at_mut(place as usize);
    let part = &mut cells[(entry.start + header.offset) as usize..][..delivered as usize];
    let brought = &areas[..delivered as usize];
    match cell.op {
        Some(op) => combine(op, cell.ty, part, brought),
        None => part.copy_from_slice(brought),
    }
}

/// All ranks, and what is possible: the starts by rank; the deliveries by source, target, request before answer; and how many operations
/// of each rank are ready.
struct World<'a> {
    cells: &'a [Cell],
    ranks: u32,
    nodes: Vec<Node>,
    mail: Mail,
    starts: Marks,
    deliveries: Marks,
    firings: Counts,
}

impl World<'_> {
    fn lane(&self, source: u32, target: u32, answer: bool) -> u32 {
        2 * (source * self.ranks + target) + u32::from(answer)
    }
    /// Does something at a rank, and counts its operations that are ready anew.
    fn at<T>(&mut self, rank: u32, act: impl FnOnce(&mut Node, &mut Mail) -> T) -> T {
        let node = &mut self.nodes[rank as usize];
        let before = node.interface.ready();
        let result = act(node, &mut self.mail);
        let after = node.interface.ready();
        if before != after {
            self.firings.add(rank as usize, after.wrapping_sub(before));
        }
        result
    }
    fn push(&mut self, lane: u32) {
        if self.mail.push(lane) {
            self.deliveries.set(lane);
        }
    }
    fn start(&mut self, rank: u32) {
        self.starts.clear(rank);
        let cells = self.cells;
        self.at(rank, |node, _| node.start(cells));
    }
    fn deliver(&mut self, lane: u32) {
        let (pair, answer) = (lane / 2, lane % 2 == 1);
        let (source, target) = (pair / self.ranks, pair % self.ranks);
        let at = self.mail.pop(lane);
        if self.mail.lanes[lane as usize].first == NONE {
            self.deliveries.clear(lane);
        }
        let due = self.at(target, |node, mail| {
            node.history.push(Local::Receive { source, answer });
            node.interface.deliver(&mail.messages[at as usize])
        });
        self.mail.give_back(at);
        if let Some(header) = due {
            let at = self.mail.room();
            let message = &mut self.mail.messages[at as usize];
            message.header = header;
            message.bytes.clear();
            self.push(self.lane(target, source, true));
        }
    }
    fn fire(&mut self, rank: u32, i: u32) {
        let at = self.mail.room();
        let to = self.at(rank, |node, mail| {
            let number = node.interface.ready_at(i);
            node.history.push(Local::Fire(number));
            let message = &mut mail.messages[at as usize];
            (node.interface.fire(number, message)).then_some(message.header.target)
        });
        if let Some(target) = to {
            self.push(self.lane(rank, target, false));
        }
    }
    /// How many steps are possible.
    fn enabled(&self) -> u32 {
        self.starts.total() + self.deliveries.total() + self.firings.total
    }
    /// Makes the i-th step of those that are possible: starts come first, then deliveries, then firings.
    fn step(&mut self, i: u32) {
        let (starts, deliveries) = (self.starts.total(), self.deliveries.total());
        if i < starts {
            self.start(self.starts.find(i));
        } else if i < starts + deliveries {
            self.deliver(self.deliveries.find(i - starts));
        } else {
            let (rank, rest) = self.firings.find(i - starts - deliveries);
            self.fire(rank as u32, rest);
        }
    }
    /// Makes steps until there is none.
    fn run(&mut self, mut choose: impl FnMut(u32) -> u32) {
        loop {
            match self.enabled() {
                0 => return,
                n => self.step(choose(n)),
            }
        }
    }
}

const CLASSES: usize = 81;

/// What is known of a rank before its interface is opened.
struct Sizes {
    cells: Vec<u32>,
    /// The bytes of all cells, and of the area of each class that there is.
    bytes: u32,
    areas: [Option<u32>; CLASSES],
    operations: usize,
    requests: usize,
    answers: usize,
}

impl Sizes {
    const NEW: Sizes = Sizes {
        cells: vec![],
        bytes: 0,
        areas: [None; CLASSES],
        operations: 0,
        requests: 0,
        answers: 0,
    };
    fn limits(&self) -> Limits {
        Limits {
            entries: self.cells.len() + self.areas.iter().flatten().count(),
            headers: self.requests,
            counters: self.cells.len() + 1,
            operations: self.operations + self.cells.len(),
        }
    }
    fn region(&self) -> usize {
        (self.bytes + self.areas.iter().flatten().sum::<u32>()) as usize
    }
}

/// The value that an operation leaves as it is.
fn starting_value(op: Op, ty: ElemType) -> u64 {
    let ones = u64::MAX >> (64 - 8 * ty.size());
    match op {
        Op::Sum | Op::Lor | Op::Bor | Op::Lxor | Op::Bxor => 0,
        Op::Prod | Op::Land => 1,
        Op::Band => ones,
        Op::Min if ty.is_signed() => ones / 2,
        Op::Min => ones,
        Op::Max if ty.is_signed() => ones / 2 + 1,
        Op::Max => 0,
    }
}

/// Each element of a part that is combined begins with the operation's starting value.
fn fill(interface: &mut Interface, start: u32, length: u32, operation: Option<(Op, ElemType)>) {
    let Some((op, ty)) = operation else { return };
    let bytes = starting_value(op, ty).to_le_bytes();
    if bytes != [0; 8] {
        let part = &mut interface.memory_mut()[start as usize..][..length as usize];
        for element in part.chunks_exact_mut(ty.size()) {
            element.copy_from_slice(&bytes[..ty.size()]);
        }
    }
}

/// What each rank needs, where each cell begins in its rank's region, and which of the rank's cells it is.
struct Layout {
    sizes: Vec<Sizes>,
    starts: Vec<u32>,
    places: Vec<u32>,
}

impl Layout {
    fn of(plan: &Plan, links: &[Link]) -> Layout {
        let mut sizes: Vec<Sizes> = (0..plan.ranks).map(|_| Sizes::NEW).collect();
        let (mut starts, mut places) = (vec![], vec![]);
        starts.reserve_exact(plan.cells.len());
        places.reserve_exact(plan.cells.len());
        for (c, cell) in plan.cells.iter().enumerate() {
            let rank = &mut sizes[cell.rank as usize];
            starts.push(rank.bytes);
            places.push(rank.cells.len() as u32);
            rank.bytes += cell.length as u32;
            rank.cells.push(c as u32);
        }
        for link in links {
            let (source, target) = (
                &plan.cells[link.source as usize],
                &plan.cells[link.target as usize],
            );
            sizes[source.rank as usize].operations += 1;
            if link.kind != Kind::Bump {
                sizes[source.rank as usize].answers += usize::from(plan.remote);
                let rank = &mut sizes[target.rank as usize];
                rank.requests += 1;
                *rank.areas[class_of(target)].get_or_insert(0) += link.length as u32;
            }
        }
        Layout {
            sizes,
            starts,
            places,
        }
    }
}

/// A rank before its start, with its areas on the overflow list and its counting events.
fn prepare(rank: u32, sizes: Sizes, plan: &Plan) -> Node {
    let limits = sizes.limits();
    let mut interface = Interface::open(rank, limits, vec![0; sizes.region()]);
    interface.allocate_portal();
    prepare_areas(&mut interface, &sizes);
    let done = interface.allocate_counter();
    let mut start = 0;
    for &c in &sizes.cells {
        let cell = &plan.cells[c as usize];
        fill(
            &mut interface,
            start,
            cell.length as u32,
            cell.op.map(|op| (op, cell.ty)),
        );
        interface.allocate_counter();
        start += cell.length as u32;
    }
    let acknowledged = if plan.remote { done } else { NONE };
    interface.bind(0, sizes.region() as u32, acknowledged);
    let steps = 1 + limits.operations + sizes.requests + sizes.answers;
    Node {
        interface,
        cells: sizes.cells,
        history: Vec::with_capacity(steps),
    }
}

/// Where messages lie that come before the start: behind the cells, an area for each class.
fn prepare_areas(interface: &mut Interface, sizes: &Sizes) {
    let mut start = sizes.bytes;
    for (class, length) in sizes.areas.iter().enumerate() {
        let Some(length) = *length else { continue };
        fill(interface, start, length, class_operation(class));
        let area = Entry {
            allow_put: true,
            manage_local: true,
            no_truncate: true,
            ..Entry::over(start, length, class_bits(class), 0xff_ffff_ffff)
        };
        interface.append(INDEX, true, area);
        start += length;
    }
}

/// What a link does once its source has got all that it needs.
fn deed(plan: &Plan, layout: &Layout, l: usize, link: &Link) -> Deed {
    let (source, target) = (
        &plan.cells[link.source as usize],
        &plan.cells[link.target as usize],
    );
    if link.kind == Kind::Bump {
        return Deed::Increment {
            counter: counter_of(layout.places[link.target as usize] as usize),
            by: Count::SUCCESS,
        };
    }
    Deed::Send(Send {
        descriptor: REGION,
        offset: layout.starts[link.source as usize] + link.source_offset as u32,
        length: link.length as u32,
        atomic: target.op.map(|op| (op, target.ty)),
        target: target.rank,
        index: INDEX,
        match_bits: match_bits(link.target, target) | u64::from(source.rank),
        target_offset: link.target_offset as u32,
        header_data: l as u64,
        acknowledged: plan.remote,
    })
}

/// The operations of all ranks: the links first, and then what counts the cells that are done.
fn trigger_all(nodes: &mut [Node], plan: &Plan, layout: &Layout, links: &[Link]) {
    for (l, link) in links.iter().enumerate() {
        let source = &plan.cells[link.source as usize];
        let counter = counter_of(layout.places[link.source as usize] as usize);
        let node = &mut nodes[source.rank as usize];
        let deed = deed(plan, layout, l, link);
        node.interface.trigger(counter, source.needs, deed);
    }
    for node in nodes {
        for (i, &c) in node.cells.iter().enumerate() {
            let tell = Deed::Increment {
                counter: DONE,
                by: Count::SUCCESS,
            };
            let needs = plan.cells[c as usize].needs;
            node.interface.trigger(counter_of(i), needs, tell);
        }
    }
}

/// All ranks prepared, and where each cell begins in its rank's region. The links are let go.
fn install<'a>(d: &Description, plan: &'a Plan, links: Vec<Link>) -> (World<'a>, Vec<u32>) {
    let ranks = plan.ranks as usize;
    let mut layout = Layout::of(plan, &links);
    let sizes = std::mem::take(&mut layout.sizes);
    let mut nodes: Vec<Node> = (0..plan.ranks)
        .zip(sizes)
        .map(|(r, sizes)| prepare(r, sizes, plan))
        .collect();
    for (i, bytes) in d.inputs.iter().enumerate() {
        let start = layout.starts[ranks + i] as usize;
        nodes[i % ranks].interface.memory_mut()[start..][..bytes.len()].copy_from_slice(bytes);
    }
    trigger_all(&mut nodes, plan, &layout, &links);
    let mut starts = Marks::new(ranks);
    (0..plan.ranks).for_each(|r| starts.set(r));
    let world = World {
        cells: &plan.cells,
        ranks: plan.ranks,
        nodes,
        mail: Mail::new(plan.ranks),
        starts,
        deliveries: Marks::new(2 * ranks * ranks),
        firings: Counts::new(ranks),
    };
    (world, layout.starts)
}

fn write_results(d: &Description, plan: &Plan, world: &World, starts: &[u32], out: &mut Out) {
    for &b in &d.prints {
        let (name, ty) = (&d.buffers[b].name, d.buffers[b].ty);
        for (r, node) in world.nodes.iter().enumerate() {
            out.bytes(name);
            out.next(r as u64);
            if let Some(c) = plan.held[b][r] {
                let memory = &node.interface.memory()[starts[c as usize] as usize..];
                let list = &memory[..plan.cells[c as usize].length as usize];
                for element in list.chunks_exact(ty.size()) {
                    out.value(ty, element);
                }
            }
            out.bytes(b"\n");
        }
    }
    out.bytes(b"rest\n");
}

fn write_orders(world: &World, out: &mut Out) {
    for (r, node) in world.nodes.iter().enumerate() {
        out.bytes(b"order");
        out.next(r as u64);
        for step in &node.history {
            let (word, number): (&[u8], _) = match *step {
                Local::Start => {
                    out.bytes(b" s");
                    continue;
                }
                Local::Receive {
                    source,
                    answer: false,
                } => (b" r", source),
                Local::Receive {
                    source,
                    answer: true,
                } => (b" a", source),
                Local::Fire(number) => (b" f", number),
            };
            out.bytes(word);
            out.number(u64::from(number));
        }
        out.bytes(b"\n");
    }
}

/// Each rank is done, and nothing was dropped.
fn judge(world: &World, done: &[u64]) {
    for (node, &success) in world.nodes.iter().zip(done) {
        let due = Count {
            success,
            failure: 0,
        };
        assert_eq!(node.interface.counted(DONE), due);
        assert_eq!(node.interface.registers(), (0, 0));
    }
}

fn main() {
    let words: Vec<String> = std::env::args().skip(1).collect();
    let seed = words.get(1).map(|word| word.parse().unwrap());
    let d = read();
    let mut plan = compile(&d);
    let done = done(&plan);
    let links = std::mem::take(&mut plan.links);
    let (mut world, starts) = install(&d, &plan, links);
    match seed.map(Words::seeded) {
        Some(mut words) => world.run(|n| words.next() % n),
        None => world.run(|_| 0),
    }
    judge(&world, &done);
    let mut out = Out::new();
    write_results(&d, &plan, &world, &starts, &mut out);
    if seed.is_some() {
        write_orders(&world, &mut out);
    }
    out.flush();
}
