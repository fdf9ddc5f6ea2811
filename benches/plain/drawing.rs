//! The plan of a description, by the tables of docs/PLANS.md.

use super::{Cell, Collective, Description, ElemType, Kind, Link, Op, Plan, Step};

/// A plan that is drawn, and the last cell of each rank so far.
struct Drawing {
    plan: Plan,
    exits: Vec<u32>,
}

/// The members of a step, the type of its elements, and how many bytes a list has that it reads.
#[derive(Clone, Copy)]
struct Site<'a> {
    members: &'a [u32],
    ty: ElemType,
    length: u64,
}

impl Site<'_> {
    fn count(&self) -> usize {
        self.members.len()
    }
    /// The place that is so many places on from the root.
    fn from_root(&self, root: usize, v: usize) -> usize {
        (root + v) % self.count()
    }
}

/// What a step leaves: for each place the last cell there, and the cell that holds what it makes.
struct Left {
    exits: Vec<u32>,
    held: Vec<Option<u32>>,
}

impl Left {
    fn everywhere(cells: Vec<u32>) -> Left {
        let held = cells.iter().map(|c| Some(*c)).collect();
        Left { exits: cells, held }
    }
    /// One cell at one place, and nothing beside it.
    fn at(place: usize, cell: u32, exits: Vec<u32>) -> Left {
        let mut held = vec![None; exits.len()];
        held[place] = Some(cell);
        Left { exits, held }
    }
}

/// The parent in the tree: the highest bit goes.
fn parent(v: usize) -> usize {
    v & !(1 << v.ilog2())
}

impl Drawing {
    fn cell(&mut self, rank: u32, ty: ElemType, op: Option<Op>, length: u64) -> u32 {
        self.plan.cells.push(Cell {
            rank,
            ty,
            op,
            length,
            needs: 0,
        });
        self.plan.cells.len() as u32 - 1
    }
    fn link(&mut self, kind: Kind, source: (u32, u64), length: u64, target: (u32, u64)) {
        self.plan.cells[target.0 as usize].needs += 1;
        self.plan.links.push(Link {
            source: source.0,
            source_offset: source.1,
            length,
            target: target.0,
            target_offset: target.1,
            kind,
        });
    }
    fn bump(&mut self, source: u32, target: u32) {
        self.link(Kind::Bump, (source, 0), 0, (target, 0));
    }
    /// The whole source is written into the target, or combined with it where it has an operation.
    fn whole(&mut self, source: u32, target: u32, at: u64) {
        let Cell { length, .. } = self.plan.cells[source as usize];
        let kind = if self.plan.cells[target as usize].op.is_some() {
            Kind::Atomic
        } else {
            Kind::Put
        };
        self.link(kind, (source, 0), length, (target, at));
    }
    /// A cell for each member, with a copy of what it gives into the step.
    fn entries(&mut self, site: Site, sources: &[Option<u32>]) -> Vec<u32> {
        let entry = |(&r, source): (&u32, &Option<u32>)| {
            let (ty, length) = source.map_or((ElemType::U8, 0), |_| (site.ty, site.length));
            let e = self.cell(r, ty, None, length);
            self.bump(self.exits[r as usize], e);
            if let Some(source) = *source {
                self.whole(source, e, 0);
            }
            e
        };
        site.members.iter().zip(sources).map(entry).collect()
    }
    /// Up a binomial tree of the places from the root on, each place with its own list and those of its children.
    fn up(&mut self, site: Site, root: usize, op: Op, entries: &[u32]) -> Vec<u32> {
        let m = site.count();
        let mut sums = vec![0; m];
        for v in (0..m).rev() {
            let place = site.from_root(root, v);
            let c = self.cell(site.members[place], site.ty, Some(op), site.length);
            self.whole(entries[place], c, 0);
            for w in (v + 1..m).filter(|w| parent(*w) == v) {
                self.whole(sums[site.from_root(root, w)], c, 0);
            }
            sums[place] = c;
        }
        sums
    }
    /// Down the same tree from a cell, each place once its own rank has come to the step.
    fn down(&mut self, site: Site, root: usize, first: u32, waits: &[u32]) -> Vec<u32> {
        let mut outs = vec![0; site.count()];
        for v in 0..site.count() {
            let place = site.from_root(root, v);
            let o = self.cell(site.members[place], site.ty, None, site.length);
            if v > 0 {
                self.bump(waits[place], o);
                self.whole(outs[site.from_root(root, parent(v))], o, 0);
            } else {
                self.whole(first, o, 0);
            }
            outs[place] = o;
        }
        outs
    }
    /// All lists one after the other at one place.
    fn gather(&mut self, site: Site, root: usize, entries: Vec<u32>) -> Left {
        let length = site.length * entries.len() as u64;
        let o = self.cell(site.members[root], site.ty, None, length);
        for (q, e) in entries.iter().enumerate() {
            self.whole(*e, o, q as u64 * site.length);
        }
        let mut exits = entries;
        exits[root] = o;
        Left::at(root, o, exits)
    }
    /// The same with the lists of those alone that hold one.
    fn gather_held(
        &mut self,
        site: Site,
        root: usize,
        holders: &[bool],
        entries: Vec<u32>,
    ) -> Left {
        let held: Vec<u32> = (entries.iter().zip(holders))
            .filter_map(|(e, holds)| holds.then_some(*e))
            .collect();
        let length = site.length * held.len() as u64;
        let o = self.cell(site.members[root], site.ty, None, length);
        self.bump(entries[root], o);
        for (j, e) in held.into_iter().enumerate() {
            self.whole(e, o, j as u64 * site.length);
        }
        let mut exits = entries;
        exits[root] = o;
        Left::at(root, o, exits)
    }
    /// Each list goes round the ring, and every place keeps each that passes.
    fn allgather(&mut self, site: Site, entries: &[u32]) -> Left {
        let (m, n) = (site.count(), site.length);
        let mut blocks: Vec<u32> = Vec::with_capacity(m * m);
        for d in 0..m {
            for i in 0..m {
                let source = if d == 0 {
                    entries[i]
                } else {
                    blocks[(d - 1) * m + (i + m - 1) % m]
                };
                let b = self.cell(site.members[i], site.ty, None, n);
                self.whole(source, b, 0);
                blocks.push(b);
            }
        }
        let out = |i: usize| {
            let o = self.cell(site.members[i], site.ty, None, n * m as u64);
            for d in 0..m {
                self.whole(blocks[d * m + i], o, ((i + m - d) % m) as u64 * n);
            }
            o
        };
        Left::everywhere((0..m).map(out).collect())
    }
    fn alltoall(&mut self, site: Site, entries: &[u32]) -> Left {
        let block = site.length / site.count() as u64;
        let out = |i: usize| {
            let o = self.cell(site.members[i], site.ty, None, site.length);
            for (q, e) in entries.iter().enumerate() {
                let (from, to) = (i as u64 * block, q as u64 * block);
                self.link(Kind::Put, (*e, from), block, (o, to));
            }
            o
        };
        Left::everywhere((0..site.count()).map(out).collect())
    }
    /// A block of one cell for each place; other places than the root wait for their own rank too.
    fn blocks(&mut self, site: Site, root: usize, first: u32, waits: &[u32]) -> Left {
        let block = site.length / site.count() as u64;
        let out = |i: usize| {
            let o = self.cell(site.members[i], site.ty, None, block);
            if i != root {
                self.bump(waits[i], o);
            }
            self.link(Kind::Put, (first, i as u64 * block), block, (o, 0));
            o
        };
        Left::everywhere((0..site.count()).map(out).collect())
    }
    /// Rounds of doubling distance, each place with what it has and what one before it has.
    fn scan(&mut self, site: Site, op: Op, entries: &[u32]) -> Vec<u32> {
        let cell = |site: Site, i: usize, drawing: &mut Drawing| {
            drawing.cell(site.members[i], site.ty, Some(op), site.length)
        };
        let mut row = entries.to_vec();
        let mut distance = 0;
        loop {
            let before = row.clone();
            for i in 0..site.count() {
                row[i] = cell(site, i, self);
                self.whole(before[i], row[i], 0);
                if distance > 0 && i >= distance {
                    self.whole(before[i - distance], row[i], 0);
                }
            }
            distance = if distance == 0 { 1 } else { 2 * distance };
            if distance >= site.count() {
                return row;
            }
        }
    }
    /// Each place gets what the scan has at the place before.
    fn shifted(&mut self, site: Site, row: &[u32]) -> Left {
        let mut left = Left {
            exits: row.to_vec(),
            held: vec![None; row.len()],
        };
        for i in 1..row.len() {
            let o = self.cell(site.members[i], site.ty, None, site.length);
            self.bump(row[i], o);
            self.whole(row[i - 1], o, 0);
            left.exits[i] = o;
            left.held[i] = Some(o);
        }
        left
    }
    /// Rounds of doubling distance.
    fn barrier(&mut self, site: Site, mut row: Vec<u32>) -> Left {
        let m = site.count();
        let mut distance = 1;
        while distance < m {
            let round = |i: usize| {
                let t = self.cell(site.members[i], ElemType::U8, None, 0);
                self.bump(row[i], t);
                self.whole(row[(i + m - distance) % m], t, 0);
                t
            };
            row = (0..m).map(round).collect();
            distance *= 2;
        }
        Left {
            held: vec![None; m],
            exits: row,
        }
    }
    /// The cells of a step behind its entries.
    fn collective(&mut self, site: Site, step: &Step, held: &[bool], e: Vec<u32>) -> Left {
        match step.collective {
            Collective::Barrier => self.barrier(site, e),
            Collective::Broadcast(root) => Left::everywhere(self.down(site, root, e[root], &e)),
            Collective::Reduce(root, op) => {
                let sums = self.up(site, root, op, &e);
                Left::at(root, sums[root], sums)
            }
            Collective::Allreduce(op) => {
                let sums = self.up(site, 0, op, &e);
                Left::everywhere(self.down(site, 0, sums[0], &sums))
            }
            Collective::Gather(root) => self.gather(site, root, e),
            Collective::Gatherv(root) => self.gather_held(site, root, held, e),
            Collective::Allgather => self.allgather(site, &e),
            Collective::Alltoall => self.alltoall(site, &e),
            Collective::Scatter(root) => self.blocks(site, root, e[root], &e),
            Collective::Reducescatter(op) => {
                let sums = self.up(site, 0, op, &e);
                self.blocks(site, 0, sums[0], &sums)
            }
            Collective::Scan(op) => Left::everywhere(self.scan(site, op, &e)),
            Collective::Exscan(op) => {
                let row = self.scan(site, op, &e);
                self.shifted(site, &row)
            }
        }
    }
    fn step(&mut self, d: &Description, step: &Step, everyone: &[u32]) {
        let members = step.group.map_or(everyone, |g| &d.groups[g]);
        let is_barrier = matches!(step.collective, Collective::Barrier);
        let source = |(place, r): (usize, &u32)| match step.collective {
            Collective::Barrier => None,
            Collective::Broadcast(root) | Collective::Scatter(root) if root != place => None,
            _ => self.plan.held[step.source][*r as usize],
        };
        let sources: Vec<Option<u32>> = members.iter().enumerate().map(source).collect();
        let some = sources.iter().flatten().next();
        let site = Site {
            members,
            ty: some.map_or(ElemType::U8, |_| d.buffers[step.source].ty),
            length: some.map_or(0, |c| self.plan.cells[*c as usize].length),
        };
        let entries = self.entries(site, &sources);
        let holders: Vec<bool> = sources.iter().map(Option::is_some).collect();
        let left = self.collective(site, step, &holders, entries);
        let mut held = vec![None; d.ranks as usize];
        for (i, &r) in members.iter().enumerate() {
            self.exits[r as usize] = left.exits[i];
            held[r as usize] = left.held[i];
        }
        if !is_barrier {
            self.plan.held.push(held);
        }
    }
    /// The cells of an input.
    fn input(&mut self, d: &Description, b: usize, everyone: &[u32]) {
        let input = |&r: &u32| {
            let length = d.inputs[b * everyone.len() + r as usize].len() as u64;
            let c = self.cell(r, d.buffers[b].ty, None, length);
            self.bump(r, c);
            Some(c)
        };
        let held = everyone.iter().map(input).collect();
        self.plan.held.push(held);
    }
}

/// The plan of a description.
pub fn compile(d: &Description) -> Plan {
    let everyone: Vec<u32> = (0..d.ranks).collect();
    let plan = Plan {
        ranks: d.ranks,
        remote: d.remote,
        cells: vec![],
        links: vec![],
        held: vec![],
    };
    let mut drawing = Drawing {
        plan,
        exits: everyone.clone(),
    };
    for &r in &everyone {
        let go = drawing.cell(r, ElemType::U8, None, 0);
        drawing.plan.cells[go as usize].needs = 1;
    }
    for b in 0..d.inputs.len() / d.ranks as usize {
        drawing.input(d, b, &everyone);
    }
    for step in &d.steps {
        drawing.step(d, step, &everyone);
    }
    drawing.plan
}
