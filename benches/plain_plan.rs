//! The plan of the description on the standard input, as text, in plain Rust.

mod plain;

use plain::{Kind, Out, Plan, compile, done, read};

fn write(plan: &Plan, out: &mut Out) {
    out.bytes(b"plan");
    for n in [
        u64::from(plan.ranks),
        plan.cells.len() as u64,
        plan.links.len() as u64,
    ] {
        out.next(n);
    }
    out.bytes(if plan.remote {
        b" remote\n"
    } else {
        b" local\n"
    });
    for (i, c) in plan.cells.iter().enumerate() {
        out.bytes(b"cell");
        out.next(i as u64);
        out.next(u64::from(c.rank));
        out.bytes(b" ");
        out.bytes(c.ty.word());
        out.bytes(b" ");
        out.bytes(c.op.map_or(b"-", |op| op.word()));
        out.next(c.length);
        out.next(c.needs);
        out.bytes(b"\n");
    }
    for (i, l) in plan.links.iter().enumerate() {
        out.bytes(b"link");
        for n in [
            i as u64,
            u64::from(l.source),
            l.source_offset,
            l.length,
            u64::from(l.target),
            l.target_offset,
        ] {
            out.next(n);
        }
        out.bytes(match l.kind {
            Kind::Put => b" put\n",
            Kind::Atomic => b" atomic\n",
            Kind::Bump => b" bump\n",
        });
    }
    for (r, threshold) in done(plan).into_iter().enumerate() {
        out.bytes(b"done");
        out.next(r as u64);
        out.next(threshold);
        out.bytes(b"\n");
    }
    out.bytes(b"end\n");
    out.flush();
}

fn main() {
    write(&compile(&read()), &mut Out::new());
}
