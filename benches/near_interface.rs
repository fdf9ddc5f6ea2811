//! An interface in plain Rust, as far as plans ask for it: counting events, triggered puts, atomics and increments, descriptors, and
//! portal table indices with two lists of match entries and unexpected headers. What it does is what docs/PROFILE.md says. It has no
//! event queues, gets, swaps or counts that are set, and handles are places. What would be refused ends the program.

use super::near_marks::Marks;
use super::plain::{ElemType, Op};

/// No place, where a place is due.
pub const NONE: u32 = u32::MAX;

#[derive(Clone, Copy, PartialEq, Debug)]
pub struct Count {
    pub success: u64,
    pub failure: u64,
}

impl Count {
    pub const SUCCESS: Count = Count {
        success: 1,
        failure: 0,
    };
    pub const FAILURE: Count = Count {
        success: 0,
        failure: 1,
    };
}

/// A counting event, with the operations that wait for it in a list by rising threshold.
struct Counter {
    count: Count,
    /// The least threshold of those that wait.
    next: u64,
    first: u32,
    last: u32,
}

impl Counter {
    const NEW: Counter = Counter {
        count: Count {
            success: 0,
            failure: 0,
        },
        next: u64::MAX,
        first: NONE,
        last: NONE,
    };
    fn sum(&self) -> u64 {
        self.count.success + self.count.failure
    }
    /// Counts successes and then failures, as far as the sum allows.
    fn add(&mut self, by: Count) {
        self.count.success += by.success.min(u64::MAX - self.sum());
        self.count.failure += by.failure.min(u64::MAX - self.sum());
    }
}

/// What a put or an atomic names.
#[derive(Clone, Copy)]
pub struct Send {
    pub descriptor: u32,
    pub offset: u32,
    pub length: u32,
    pub atomic: Option<(Op, ElemType)>,
    pub target: u32,
    pub index: u32,
    pub match_bits: u64,
    pub target_offset: u32,
    pub header_data: u64,
    /// Whether an acknowledgement is asked for.
    pub acknowledged: bool,
}

#[derive(Clone, Copy)]
pub enum Deed {
    Send(Send),
    Increment {
        counter: u32,
        by: Count,
    },
    /// It was fired.
    Gone,
}

/// A triggered operation.
struct Triggered {
    threshold: u64,
    /// The next one in the list of its counting event.
    next: u32,
    deed: Deed,
}

/// Triggered operations by number, with the counting events that they wait for.
struct Pending {
    counters: Vec<Counter>,
    operations: Vec<Triggered>,
    ready: Marks,
}

impl Pending {
    fn new(counters: usize, operations: usize) -> Pending {
        Pending {
            counters: Vec::with_capacity(counters),
            operations: Vec::with_capacity(operations),
            ready: Marks::new(operations),
        }
    }
    fn count(&mut self, counter: u32, by: Count) {
        let counter = &mut self.counters[counter as usize];
        counter.add(by);
        let sum = counter.sum();
        if sum < counter.next {
            return;
        }
        let mut number = counter.first;
        counter.next = u64::MAX;
        while number != NONE {
            let operation = &self.operations[number as usize];
            if operation.threshold > sum {
                counter.next = operation.threshold;
                break;
            }
            self.ready.set(number);
            number = operation.next;
        }
        counter.first = number;
    }
    fn post(&mut self, counter: u32, threshold: u64, deed: Deed) {
        let number = self.operations.len() as u32;
        let waits = &mut self.counters[counter as usize];
        let mut next = NONE;
        if waits.sum() >= threshold {
            self.ready.set(number);
        } else if waits.first == NONE {
            (waits.first, waits.last, waits.next) = (number, number, threshold);
        } else if threshold < waits.next {
            next = waits.first;
            (waits.first, waits.next) = (number, threshold);
        } else {
            let mut before = waits.last;
            if self.operations[before as usize].threshold > threshold {
                before = last_up_to(&self.operations, waits.first, threshold);
            } else {
                waits.last = number;
            }
            next = std::mem::replace(&mut self.operations[before as usize].next, number);
        }
        self.operations.push(Triggered {
            threshold,
            next,
            deed,
        });
    }
    /// Takes away an operation that is ready.
    fn take(&mut self, number: u32) -> Deed {
        self.ready.clear(number);
        std::mem::replace(&mut self.operations[number as usize].deed, Deed::Gone)
    }
}

/// The last operation of a list whose threshold is no higher, if the first one's isn't.
fn last_up_to(operations: &[Triggered], first: u32, threshold: u64) -> u32 {
    let mut at = first;
    loop {
        let next = operations[at as usize].next;
        if next == NONE || operations[next as usize].threshold > threshold {
            return at;
        }
        at = next;
    }
}

#[derive(Clone, Copy)]
pub enum Request {
    Put,
    Atomic(Op, ElemType),
    /// The answer to a request: whether it was delivered.
    Acknowledgement(bool),
}

/// The header of a message.
#[derive(Clone, Copy)]
pub struct Header {
    pub request: Request,
    pub source: u32,
    pub target: u32,
    pub index: u32,
    pub match_bits: u64,
    pub offset: u32,
    pub length: u32,
    /// What events would tell.
    #[allow(dead_code)]
    pub header_data: u64,
    /// The descriptor that awaits the answer, if one is asked for.
    pub home: u32,
}

/// A message: an acknowledgement has no bytes.
pub struct Message {
    pub header: Header,
    pub bytes: Vec<u8>,
}

impl Message {
    /// A place to fill in.
    pub const EMPTY: Message = Message {
        header: Header {
            request: Request::Put,
            source: 0,
            target: 0,
            index: 0,
            match_bits: 0,
            offset: 0,
            length: 0,
            header_data: 0,
            home: NONE,
        },
        bytes: vec![],
    };
}

/// A part of the region that operations read from.
struct Descriptor {
    start: u32,
    length: u32,
    /// The counting event of acknowledgements, if they are counted.
    counter: u32,
    awaits: u64,
}

/// A match entry.
#[derive(Clone, Copy)]
pub struct Entry {
    pub match_bits: u64,
    pub ignore_bits: u64,
    pub start: u32,
    pub length: u32,
    /// The rank whose messages it takes, or all.
    pub source: u32,
    pub counter: u32,
    pub use_once: bool,
    pub manage_local: bool,
    pub no_truncate: bool,
    pub allow_put: bool,
    pub count_comm: bool,
    pub count_overflow: bool,
    pub min_free: u32,
    /// The running offset of a locally managed entry.
    pub running: u32,
    /// How many entries were appended before it, and the next one in its chain, or among the free places.
    pub order: u32,
    pub next: u32,
}

impl Entry {
    /// An entry over a part of the region that takes no message, counts nothing and stays.
    pub fn over(start: u32, length: u32, match_bits: u64, ignore_bits: u64) -> Entry {
        Entry {
            match_bits,
            ignore_bits,
            start,
            length,
            source: NONE,
            counter: NONE,
            use_once: false,
            manage_local: false,
            no_truncate: false,
            allow_put: false,
            count_comm: false,
            count_overflow: false,
            min_free: 0,
            running: 0,
            order: 0,
            next: NONE,
        }
    }
    pub fn matches(&self, header: &Header) -> bool {
        (self.match_bits ^ header.match_bits) & !self.ignore_bits == 0
            && (self.source == NONE || self.source == header.source)
    }
    fn offset(&self, header: &Header) -> u32 {
        if self.manage_local {
            self.running
        } else {
            header.offset
        }
    }
    /// How many bytes it has room for.
    fn space(&self, header: &Header) -> u32 {
        self.length.saturating_sub(self.offset(header))
    }
    fn takes(&self, header: &Header) -> bool {
        self.matches(header) && (!self.no_truncate || header.length <= self.space(header))
    }
    fn is_over(&self) -> bool {
        self.use_once || self.manage_local && self.length - self.running < self.min_free
    }
}

/// The first and the last place of a chain.
#[derive(Clone, Copy)]
pub struct Chain {
    pub first: u32,
    pub last: u32,
}

impl Chain {
    pub const EMPTY: Chain = Chain {
        first: NONE,
        last: NONE,
    };
}

/// A list of match entries in the order of appending. A message is looked for once under each kind of ignore bits that entries of the
/// list have: entries that take it stand in one chain, which is found by the bits that aren't ignored.
struct List {
    kinds: Vec<u64>,
    chains: Vec<Chain>,
    count: usize,
}

impl List {
    fn new() -> List {
        List {
            kinds: vec![],
            chains: vec![Chain::EMPTY; 8],
            count: 0,
        }
    }
    fn chain(&self, match_bits: u64, ignore_bits: u64) -> usize {
        let kept = match_bits & !ignore_bits;
        let mixed = (kept ^ ignore_bits.rotate_left(32)).wrapping_mul(0x9e37_79b9_7f4a_7c15);
        (mixed >> (64 - self.chains.len().trailing_zeros())) as usize
    }
    fn find(&self, entries: &[Entry], header: &Header) -> Option<u32> {
        let mut found = None;
        let mut order = NONE;
        for &ignore_bits in &self.kinds {
            let mut at = self.chains[self.chain(header.match_bits, ignore_bits)].first;
            while at != NONE {
                let entry = &entries[at as usize];
                if entry.takes(header) {
                    if entry.order < order {
                        (found, order) = (Some(at), entry.order);
                    }
                    break;
                }
                at = entry.next;
            }
        }
        found
    }
    fn append(&mut self, entries: &mut [Entry], at: u32) {
        let Entry { ignore_bits, .. } = entries[at as usize];
        if !self.kinds.contains(&ignore_bits) {
            self.kinds.push(ignore_bits);
        }
        self.count += 1;
        if self.count > self.chains.len() {
            let fewer = std::mem::take(&mut self.chains);
            self.chains = vec![Chain::EMPTY; 2 * fewer.len()];
            for chain in fewer {
                let mut each = chain.first;
                while each != NONE {
                    let next = entries[each as usize].next;
                    self.link(entries, each);
                    each = next;
                }
            }
        }
        self.link(entries, at);
    }
    /// Puts an entry at the end of its chain.
    fn link(&mut self, entries: &mut [Entry], at: u32) {
        let entry = &mut entries[at as usize];
        entry.next = NONE;
        let number = self.chain(entry.match_bits, entry.ignore_bits);
        let chain = &mut self.chains[number];
        if chain.first == NONE {
            chain.first = at;
        } else {
            entries[chain.last as usize].next = at;
        }
        chain.last = at;
    }
    fn unlink(&mut self, entries: &mut [Entry], at: u32) {
        let entry = entries[at as usize];
        let number = self.chain(entry.match_bits, entry.ignore_bits);
        let chain = &mut self.chains[number];
        let (mut before, mut each) = (NONE, chain.first);
        while each != at {
            (before, each) = (each, entries[each as usize].next);
        }
        if before == NONE {
            chain.first = entry.next;
        } else {
            entries[before as usize].next = entry.next;
        }
        if chain.last == at {
            chain.last = before;
        }
        self.count -= 1;
    }
}

/// Why a request isn't delivered.
enum Refusal {
    Dropped,
    Violation,
}

/// The header of a message that an entry of the overflow list took.
pub struct Unexpected {
    pub header: Header,
    pub place: u32,
    pub delivered: u32,
}

/// A portal table index: entries by place, the two lists, and the unexpected headers in order of arrival.
struct Portal {
    entries: Vec<Entry>,
    free: u32,
    appended: u32,
    priority: List,
    overflow: List,
    headers: Vec<Unexpected>,
}

impl Portal {
    fn new(entries: usize) -> Portal {
        Portal {
            entries: Vec::with_capacity(entries),
            free: NONE,
            appended: 0,
            priority: List::new(),
            overflow: List::new(),
            headers: vec![],
        }
    }
    /// Takes the headers that an entry finds: all of them, or the oldest where it is used once. How many it took.
    fn take_headers(&mut self, entry: &Entry) -> usize {
        let before = self.headers.len();
        if entry.use_once {
            let oldest = self.headers.iter().position(|u| entry.matches(&u.header));
            oldest.map(|i| self.headers.remove(i));
        } else {
            self.headers.retain(|u| !entry.matches(&u.header));
        }
        before - self.headers.len()
    }
    fn link(&mut self, overflow: bool, mut entry: Entry) {
        (entry.order, entry.running) = (self.appended, 0);
        self.appended += 1;
        let at = self.free;
        let at = if at == NONE {
            self.entries.push(entry);
            self.entries.len() as u32 - 1
        } else {
            self.free = std::mem::replace(&mut self.entries[at as usize], entry).next;
            at
        };
        let list = if overflow {
            &mut self.overflow
        } else {
            &mut self.priority
        };
        list.append(&mut self.entries, at);
    }
    fn unlink(&mut self, overflow: bool, at: u32) {
        let list = if overflow {
            &mut self.overflow
        } else {
            &mut self.priority
        };
        list.unlink(&mut self.entries, at);
        self.entries[at as usize].next = self.free;
        self.free = at;
    }
}

/// How much there may be of everything.
#[derive(Clone, Copy)]
pub struct Limits {
    pub entries: usize,
    pub headers: usize,
    pub counters: usize,
    pub operations: usize,
}

/// The interface of a rank.
pub struct Interface {
    rank: u32,
    limits: Limits,
    memory: Vec<u8>,
    pending: Pending,
    descriptors: Vec<Descriptor>,
    portals: Vec<Portal>,
    dropped: u64,
    violations: u64,
}

/// Combines the bytes of a list with others, element by element; the list's element is the first operand.
pub fn combine(op: Op, ty: ElemType, list: &mut [u8], others: &[u8]) {
    macro_rules! combine_as {
        ($ty:ty) => {{
            const SIZE: usize = size_of::<$ty>();
            fn each(list: &mut [u8], others: &[u8], f: impl Fn($ty, $ty) -> $ty) {
                let (list, others) = (list.as_chunks_mut::<SIZE>().0, others.as_chunks::<SIZE>().0);
                for (x, y) in list.iter_mut().zip(others) {
                    *x = f(<$ty>::from_le_bytes(*x), <$ty>::from_le_bytes(*y)).to_le_bytes();
                }
            }
            match op {
                Op::Min => each(list, others, |x, y| x.min(y)),
                Op::Max => each(list, others, |x, y| x.max(y)),
                Op::Sum => each(list, others, |x, y| x.wrapping_add(y)),
                Op::Prod => each(list, others, |x, y| x.wrapping_mul(y)),
                Op::Lor => each(list, others, |x, y| <$ty>::from(x != 0 || y != 0)),
                Op::Land => each(list, others, |x, y| <$ty>::from(x != 0 && y != 0)),
                Op::Bor => each(list, others, |x, y| x | y),
                Op::Band => each(list, others, |x, y| x & y),
                Op::Lxor => each(list, others, |x, y| <$ty>::from((x != 0) != (y != 0))),
                Op::Bxor => each(list, others, |x, y| x ^ y),
            }
        }};
    }
    match ty {
        ElemType::U8 => combine_as!(u8),
        ElemType::I8 => combine_as!(i8),
        ElemType::U16 => combine_as!(u16),
        ElemType::I16 => combine_as!(i16),
        ElemType::U32 => combine_as!(u32),
        ElemType::I32 => combine_as!(i32),
        ElemType::U64 => combine_as!(u64),
        ElemType::I64 => combine_as!(i64),
    }
}

impl Interface {
    pub fn open(rank: u32, limits: Limits, memory: Vec<u8>) -> Interface {
        Interface {
            rank,
            limits,
            memory,
            pending: Pending::new(limits.counters, limits.operations),
            descriptors: vec![],
            portals: vec![],
            dropped: 0,
            violations: 0,
        }
    }
    pub fn memory(&self) -> &[u8] {
        &self.memory
    }
    /// What the host may write.
    pub fn memory_mut(&mut self) -> &mut [u8] {
        &mut self.memory
    }
    /// The registers: how many messages were dropped, and how many violations there were.
    pub fn registers(&self) -> (u64, u64) {
        (self.dropped, self.violations)
    }
    pub fn allocate_portal(&mut self) -> u32 {
        self.portals.push(Portal::new(self.limits.entries));
        self.portals.len() as u32 - 1
    }
    pub fn allocate_counter(&mut self) -> u32 {
        assert!(self.pending.counters.len() < self.limits.counters);
        self.pending.counters.push(Counter::NEW);
        self.pending.counters.len() as u32 - 1
    }
    pub fn counted(&self, counter: u32) -> Count {
        self.pending.counters[counter as usize].count
    }
    pub fn count(&mut self, counter: u32, by: Count) {
        self.pending.count(counter, by);
    }
    /// A descriptor of a part of the region, whose acknowledgements are counted, if there is a counting event.
    pub fn bind(&mut self, start: u32, length: u32, counter: u32) -> u32 {
        assert!(start as usize + length as usize <= self.memory.len());
        self.descriptors.push(Descriptor {
            start,
            length,
            counter,
            awaits: 0,
        });
        self.descriptors.len() as u32 - 1
    }
    /// An operation waits until a counting event has counted so much.
    pub fn trigger(&mut self, counter: u32, threshold: u64, deed: Deed) {
        assert!(self.pending.operations.len() < self.limits.operations);
        if let Deed::Send(send) = &deed {
            let descriptor = &self.descriptors[send.descriptor as usize];
            assert!(send.offset + send.length <= descriptor.length);
        }
        self.pending.post(counter, threshold, deed);
    }
    /// How many operations are ready.
    pub fn ready(&self) -> u32 {
        self.pending.ready.total()
    }
    /// The number of the i-th that is ready.
    pub fn ready_at(&self, i: u32) -> u32 {
        self.pending.ready.find(i)
    }
    /// The unexpected headers in order of arrival.
    pub fn headers(&self, index: u32) -> &[Unexpected] {
        &self.portals[index as usize].headers
    }
    /// Links an entry. In the priority list it takes the headers first that it finds; a use-once entry that took one isn't linked.
    pub fn append(&mut self, index: u32, overflow: bool, entry: Entry) {
        let portal = &mut self.portals[index as usize];
        let linked = portal.priority.count + portal.overflow.count;
        assert!(linked < self.limits.entries);
        assert!(entry.start as usize + entry.length as usize <= self.memory.len());
        if !overflow && !portal.headers.is_empty() {
            let taken = portal.take_headers(&entry);
            if entry.count_overflow {
                (0..taken).for_each(|_| self.pending.count(entry.counter, Count::SUCCESS));
            }
            if entry.use_once && taken > 0 {
                return;
            }
        }
        portal.link(overflow, entry);
    }
    /// Fires an operation that is ready, and tells whether the message was filled in, which is then to be sent.
    pub fn fire(&mut self, number: u32, message: &mut Message) -> bool {
        match self.pending.take(number) {
            Deed::Send(send) => {
                self.start(&send, message);
                true
            }
            Deed::Increment { counter, by } => {
                self.count(counter, by);
                false
            }
            Deed::Gone => unreachable!("operation {number} isn't ready"),
        }
    }
    fn start(&mut self, send: &Send, message: &mut Message) {
        let descriptor = &mut self.descriptors[send.descriptor as usize];
        if send.acknowledged {
            descriptor.awaits += 1;
        }
        let at = (descriptor.start + send.offset) as usize;
        message.bytes.clear();
        message
            .bytes
            .extend_from_slice(&self.memory[at..at + send.length as usize]);
        message.header = Header {
            request: match send.atomic {
                Some((op, ty)) => Request::Atomic(op, ty),
                None => Request::Put,
            },
            source: self.rank,
            target: send.target,
            index: send.index,
            match_bits: send.match_bits,
            offset: send.target_offset,
            length: send.length,
            header_data: send.header_data,
            home: if send.acknowledged {
                send.descriptor
            } else {
                NONE
            },
        };
    }
    /// Takes in a message, and gives the header of its answer, if one is due.
    pub fn deliver(&mut self, message: &Message) -> Option<Header> {
        let header = &message.header;
        if let Request::Acknowledgement(ok) = header.request {
            self.acknowledged(header, ok);
            return None;
        }
        let delivered = self.request(header, &message.bytes);
        (header.home != NONE).then(|| Header {
            request: Request::Acknowledgement(delivered.is_some()),
            source: header.target,
            target: header.source,
            offset: 0,
            length: delivered.unwrap_or(0),
            ..*header
        })
    }
    fn acknowledged(&mut self, header: &Header, ok: bool) {
        let Some(descriptor) =
            (self.descriptors.get_mut(header.home as usize)).filter(|d| d.awaits > 0)
        else {
            self.dropped += 1;
            return;
        };
        descriptor.awaits -= 1;
        let counter = descriptor.counter;
        if counter != NONE {
            self.count(counter, if ok { Count::SUCCESS } else { Count::FAILURE });
        }
    }
    /// A put or an atomic arrives. How many bytes of it were delivered, if it was.
    fn request(&mut self, header: &Header, bytes: &[u8]) -> Option<u32> {
        match self.choose(header) {
            Ok((at, overflow)) => Some(self.receive(at, overflow, header, bytes)),
            Err(Refusal::Dropped) => {
                self.dropped += 1;
                None
            }
            Err(Refusal::Violation) => {
                self.violations += 1;
                None
            }
        }
    }
    /// The first entry of the priority list that takes a message, else of the overflow list, and whether it is of that.
    fn choose(&self, header: &Header) -> Result<(u32, bool), Refusal> {
        let portal = (self.portals.get(header.index as usize)).ok_or(Refusal::Dropped)?;
        let first = portal.priority.find(&portal.entries, header);
        let at = first
            .or_else(|| portal.overflow.find(&portal.entries, header))
            .ok_or(Refusal::Dropped)?;
        if !portal.entries[at as usize].allow_put {
            return Err(Refusal::Violation);
        }
        let overflow = first.is_none();
        if overflow && portal.headers.len() == self.limits.headers {
            return Err(Refusal::Dropped);
        }
        Ok((at, overflow))
    }
    fn receive(&mut self, at: u32, overflow: bool, header: &Header, bytes: &[u8]) -> u32 {
        let portal = &mut self.portals[header.index as usize];
        let entry = &mut portal.entries[at as usize];
        let mut delivered = header.length.min(entry.space(header));
        if let Request::Atomic(_, ty) = header.request {
            delivered -= delivered % ty.size() as u32;
        }
        let place = if delivered == 0 {
            0
        } else {
            entry.start + entry.offset(header)
        };
        if entry.manage_local {
            entry.running += delivered;
        }
        let (counter, counts) = (entry.counter, entry.count_comm);
        if entry.is_over() {
            portal.unlink(overflow, at);
        }
        if overflow {
            portal.headers.push(Unexpected {
                header: *header,
                place,
                delivered,
            });
        }
        self.write(header.request, place, &bytes[..delivered as usize]);
        if counts {
            self.count(counter, Count::SUCCESS);
        }
        delivered
    }
    /// What a put or an atomic does to the memory.
    fn write(&mut self, request: Request, place: u32, bytes: &[u8]) {
        if bytes.is_empty() {
            return;
        }
        let part = &mut self.memory[place as usize..place as usize + bytes.len()];
        match request {
            Request::Atomic(op, ty) => combine(op, ty, part, bytes),
            _ => part.copy_from_slice(bytes),
        }
    }
}
