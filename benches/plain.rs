//! Descriptions and their plans in plain Rust: what the programs beside this file share, each a part of it. Nothing is proved here. A
//! description's text is read as it is, without the language's limits; a text that isn't understood is refused with its line.
#![allow(dead_code)]

mod drawing;

pub use drawing::compile;

use std::collections::HashMap;
use std::io::{self, Read, Write};

/// The type of elements: a letter, and how many bits.
#[derive(Clone, Copy, PartialEq)]
pub enum ElemType {
    U8,
    I8,
    U16,
    I16,
    U32,
    I32,
    U64,
    I64,
}

impl ElemType {
    pub const ALL: [ElemType; 8] = {
        use ElemType::*;
        [U8, I8, U16, I16, U32, I32, U64, I64]
    };
    pub fn of(word: &[u8]) -> Option<ElemType> {
        use ElemType::*;
        Some(match word {
            b"u8" => U8,
            b"i8" => I8,
            b"u16" => U16,
            b"i16" => I16,
            b"u32" => U32,
            b"i32" => I32,
            b"u64" => U64,
            b"i64" => I64,
            _ => return None,
        })
    }
    pub fn word(self) -> &'static [u8] {
        use ElemType::*;
        match self {
            U8 => b"u8",
            I8 => b"i8",
            U16 => b"u16",
            I16 => b"i16",
            U32 => b"u32",
            I32 => b"i32",
            U64 => b"u64",
            I64 => b"i64",
        }
    }
    pub fn size(self) -> usize {
        use ElemType::*;
        match self {
            U8 | I8 => 1,
            U16 | I16 => 2,
            U32 | I32 => 4,
            U64 | I64 => 8,
        }
    }
    pub fn is_signed(self) -> bool {
        use ElemType::*;
        matches!(self, I8 | I16 | I32 | I64)
    }
    /// The bit pattern of a value of this type.
    fn pattern(self, word: &[u8]) -> Option<u64> {
        let (negative, digits) = match word {
            [b'-', rest @ ..] if self.is_signed() => (true, rest),
            _ => (false, word),
        };
        let value = number(digits)?;
        let half = 1u64 << (8 * self.size() - 1);
        let most = if self.is_signed() {
            half - 1 + u64::from(negative)
        } else {
            half - 1 + half
        };
        if value > most || negative && value == 0 {
            return None;
        }
        Some(if negative {
            value.wrapping_neg()
        } else {
            value
        })
    }
}

#[derive(Clone, Copy, PartialEq)]
pub enum Op {
    Min,
    Max,
    Sum,
    Prod,
    Lor,
    Land,
    Bor,
    Band,
    Lxor,
    Bxor,
}

impl Op {
    const WORDS: [(&[u8], Op); 10] = [
        (b"min", Op::Min),
        (b"max", Op::Max),
        (b"sum", Op::Sum),
        (b"prod", Op::Prod),
        (b"lor", Op::Lor),
        (b"land", Op::Land),
        (b"bor", Op::Bor),
        (b"band", Op::Band),
        (b"lxor", Op::Lxor),
        (b"bxor", Op::Bxor),
    ];
    fn of(word: &[u8]) -> Option<Op> {
        Op::WORDS
            .iter()
            .find(|(w, _)| *w == word)
            .map(|(_, op)| *op)
    }
    pub const ALL: [Op; 10] = {
        use Op::*;
        [Min, Max, Sum, Prod, Lor, Land, Bor, Band, Lxor, Bxor]
    };
    pub fn word(self) -> &'static [u8] {
        Op::WORDS[self as usize].0
    }
}

/// What a step does. A root is a place among the members.
#[derive(Clone, Copy)]
pub enum Collective {
    Barrier,
    Broadcast(usize),
    Reduce(usize, Op),
    Allreduce(Op),
    Gather(usize),
    Allgather,
    Alltoall,
    Scan(Op),
    Scatter(usize),
    Reducescatter(Op),
    Exscan(Op),
    Gatherv(usize),
}

impl Collective {
    /// What the words of a step say, with the buffer that it reads and the one that it makes.
    fn of<'a, 'b>(words: &'b [&'a [u8]]) -> Option<(Collective, Option<[&'a [u8]; 2]>)> {
        let root = |word| number(word).map(|root| root as usize);
        Some(match *words {
            [b"barrier"] => (Collective::Barrier, None),
            [b"allgather", a, b] => (Collective::Allgather, Some([a, b])),
            [b"alltoall", a, b] => (Collective::Alltoall, Some([a, b])),
            [b"broadcast", r, a, b] => (Collective::Broadcast(root(r)?), Some([a, b])),
            [b"gather", r, a, b] => (Collective::Gather(root(r)?), Some([a, b])),
            [b"scatter", r, a, b] => (Collective::Scatter(root(r)?), Some([a, b])),
            [b"gatherv", r, a, b] => (Collective::Gatherv(root(r)?), Some([a, b])),
            [b"reduce", r, op, a, b] => (Collective::Reduce(root(r)?, Op::of(op)?), Some([a, b])),
            [b"allreduce", op, a, b] => (Collective::Allreduce(Op::of(op)?), Some([a, b])),
            [b"scan", op, a, b] => (Collective::Scan(Op::of(op)?), Some([a, b])),
            [b"reducescatter", op, a, b] => (Collective::Reducescatter(Op::of(op)?), Some([a, b])),
            [b"exscan", op, a, b] => (Collective::Exscan(Op::of(op)?), Some([a, b])),
            _ => return None,
        })
    }
}

pub struct Step {
    pub collective: Collective,
    pub group: Option<usize>,
    /// The buffer that it reads; a barrier reads none.
    pub source: usize,
}

pub struct Buffer {
    pub name: Vec<u8>,
    pub ty: ElemType,
}

pub struct Description {
    pub ranks: u32,
    pub remote: bool,
    pub groups: Vec<Vec<u32>>,
    /// The inputs first, and then what the steps make.
    pub buffers: Vec<Buffer>,
    /// For each input and each rank the bytes.
    pub inputs: Vec<Vec<u8>>,
    pub steps: Vec<Step>,
    pub prints: Vec<usize>,
}

/// A decimal number without leading zeros.
fn number(digits: &[u8]) -> Option<u64> {
    if digits.is_empty() || digits.len() > 1 && digits[0] == b'0' {
        return None;
    }
    let mut value = 0u64;
    for d in digits {
        if !d.is_ascii_digit() {
            return None;
        }
        value = value.checked_mul(10)?.checked_add(u64::from(d - b'0'))?;
    }
    Some(value)
}

/// The lines of a text, counted.
struct Lines<'a> {
    text: &'a [u8],
    at: usize,
}

impl<'a> Lines<'a> {
    fn next(&mut self) -> Option<&'a [u8]> {
        let end = self.text.iter().position(|b| *b == b'\n')?;
        let line = &self.text[..end];
        self.text = &self.text[end + 1..];
        self.at += 1;
        Some(line)
    }
}

fn words(line: &[u8]) -> Vec<&[u8]> {
    line.split(|b| *b == b' ').collect()
}

struct Reader<'a> {
    lines: Lines<'a>,
    names: HashMap<&'a [u8], usize>,
    groups: HashMap<&'a [u8], usize>,
    d: Description,
}

impl<'a> Reader<'a> {
    fn data(&mut self, ty: ElemType, count: usize) -> Option<()> {
        for _ in 0..self.d.ranks {
            let mut bytes = Vec::with_capacity(count * ty.size());
            for word in self.lines.next()?.split(|b| *b == b' ') {
                bytes.extend_from_slice(&ty.pattern(word)?.to_le_bytes()[..ty.size()]);
            }
            if bytes.len() != count * ty.size() {
                return None;
            }
            self.d.inputs.push(bytes);
        }
        Some(())
    }
    fn name(&mut self, name: &'a [u8], ty: ElemType) -> Option<()> {
        if self.names.insert(name, self.d.buffers.len()).is_some() {
            return None;
        }
        self.d.buffers.push(Buffer {
            name: name.to_vec(),
            ty,
        });
        Some(())
    }
    fn step(&mut self, group: Option<usize>, words: &[&'a [u8]]) -> Option<()> {
        let (collective, names) = Collective::of(words)?;
        let mut source = 0;
        if let Some([a, b]) = names {
            source = *self.names.get(a)?;
            self.name(b, self.d.buffers[source].ty)?;
        }
        self.d.steps.push(Step {
            collective,
            group,
            source,
        });
        Some(())
    }
    fn line(&mut self) -> Option<bool> {
        let words = words(self.lines.next()?);
        match words[..] {
            [b"end"] => {
                return if self.lines.text.is_empty() {
                    Some(false)
                } else {
                    None
                };
            }
            [b"group", name, ref members @ ..] => {
                self.groups.insert(name, self.d.groups.len());
                let members: Option<Vec<u32>> = members
                    .iter()
                    .map(|m| number(m).map(|m| m as u32))
                    .collect();
                self.d.groups.push(members?);
            }
            [b"input", name, ty, count] => {
                let (ty, count) = (ElemType::of(ty)?, number(count)?);
                self.name(name, ty)?;
                self.data(ty, count as usize)?;
            }
            [b"print", name] => self.d.prints.push(*self.names.get(name)?),
            [b"on", group, ref step @ ..] => {
                let g = *self.groups.get(group)?;
                self.step(Some(g), step)?;
            }
            ref step => self.step(None, step)?,
        }
        Some(true)
    }
}

/// The description of a text. `Err`: its line that isn't understood.
pub fn parse(text: &[u8]) -> Result<Description, usize> {
    let d = Description {
        ranks: 0,
        remote: false,
        groups: vec![],
        buffers: vec![],
        inputs: vec![],
        steps: vec![],
        prints: vec![],
    };
    let mut reader = Reader {
        lines: Lines { text, at: 0 },
        names: HashMap::new(),
        groups: HashMap::new(),
        d,
    };
    if !matches!(reader.lines.next(), Some(b"coll 1" | b"coll 2")) {
        return Err(1);
    }
    let ranks = reader
        .lines
        .next()
        .and_then(|line| number(line.strip_prefix(b"ranks ")?));
    reader.d.ranks = ranks.ok_or(2usize)? as u32;
    if let Some(rest) = reader.lines.text.strip_prefix(b"complete remote\n") {
        reader.d.remote = true;
        reader.lines = Lines { text: rest, at: 3 };
    }
    while reader.line().ok_or(reader.lines.at)? {}
    Ok(reader.d)
}

/// A counting event together with a part of one rank's memory.
#[derive(Clone, Copy)]
pub struct Cell {
    pub rank: u32,
    pub ty: ElemType,
    pub op: Option<Op>,
    pub length: u64,
    pub needs: u64,
}

#[derive(Clone, Copy, PartialEq)]
pub enum Kind {
    Put,
    Atomic,
    Bump,
}

/// A triggered operation from one cell to a higher one.
#[derive(Clone, Copy)]
pub struct Link {
    pub source: u32,
    pub source_offset: u64,
    pub length: u64,
    pub target: u32,
    pub target_offset: u64,
    pub kind: Kind,
}

pub struct Plan {
    pub ranks: u32,
    pub remote: bool,
    pub cells: Vec<Cell>,
    pub links: Vec<Link>,
    /// For each buffer and each rank the cell that holds it.
    pub held: Vec<Vec<Option<u32>>>,
}

/// Where each rank's counter of what is done stands when all is done.
pub fn done(plan: &Plan) -> Vec<u64> {
    let mut done = vec![0; plan.ranks as usize];
    for cell in &plan.cells {
        done[cell.rank as usize] += 1;
    }
    if plan.remote {
        for link in plan.links.iter().filter(|l| l.kind != Kind::Bump) {
            done[plan.cells[link.source as usize].rank as usize] += 1;
        }
    }
    done
}

/// PCG XSH RR 64/32, as the crate rand_pcg seeds it from a number.
pub struct Words {
    state: u64,
    increment: u64,
}

impl Words {
    const TIMES: u64 = 6_364_136_223_846_793_005;
    fn word(s: u64) -> u32 {
        ((((s >> 18) ^ s) >> 27) as u32).rotate_right((s >> 59) as u32)
    }
    pub fn seeded(mut s: u64) -> Words {
        let w = [(); 4].map(|()| {
            s = s
                .wrapping_mul(Words::TIMES)
                .wrapping_add(11_634_580_027_462_260_723);
            u64::from(Words::word(s))
        });
        let increment = (w[2] | w[3] << 32) | 1;
        Words {
            state: (w[0] | w[1] << 32)
                .wrapping_add(increment)
                .wrapping_mul(Words::TIMES)
                .wrapping_add(increment),
            increment,
        }
    }
    pub fn next(&mut self) -> u32 {
        let word = Words::word(self.state);
        self.state = self
            .state
            .wrapping_mul(Words::TIMES)
            .wrapping_add(self.increment);
        word
    }
}

/// A text that goes to the standard output in pieces of 64 KiB.
pub struct Out {
    held: Vec<u8>,
    to: io::Stdout,
}

impl Out {
    pub fn new() -> Out {
        Out {
            held: Vec::with_capacity(65_536),
            to: io::stdout(),
        }
    }
    pub fn bytes(&mut self, bytes: &[u8]) {
        if self.held.len() + bytes.len() > 65_536 {
            self.flush();
        }
        self.held.extend_from_slice(bytes);
    }
    pub fn number(&mut self, mut n: u64) {
        let mut digits = [0u8; 20];
        let mut at = 20;
        loop {
            at -= 1;
            digits[at] = b'0' + (n % 10) as u8;
            n /= 10;
            if n == 0 {
                break;
            }
        }
        self.bytes(&digits[at..]);
    }
    /// A space and the value of an element.
    pub fn value(&mut self, ty: ElemType, element: &[u8]) {
        let mut bytes = [0; 8];
        bytes[..ty.size()].copy_from_slice(element);
        let (pattern, unused) = (u64::from_le_bytes(bytes), 64 - 8 * ty.size());
        let value = (pattern << unused) as i64 >> unused;
        if ty.is_signed() && value < 0 {
            self.bytes(b" -");
            self.number(value.unsigned_abs());
        } else {
            self.next(pattern);
        }
    }
    /// A space and a number.
    pub fn next(&mut self, n: u64) {
        self.bytes(b" ");
        self.number(n);
    }
    pub fn flush(&mut self) {
        let mut to = self.to.lock();
        to.write_all(&self.held).unwrap();
        to.flush().unwrap();
        self.held.clear();
    }
}

/// The description on the standard input. A text that isn't understood ends the program.
pub fn read() -> Description {
    let mut text = vec![];
    io::stdin().lock().read_to_end(&mut text).unwrap();
    match parse(&text) {
        Ok(d) => d,
        Err(line) => {
            println!("refused {line} BadLine");
            std::process::exit(3);
        }
    }
}
