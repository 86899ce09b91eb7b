//! An offline memory check: each read finds what was written last.
//!
//! - Each row of the first AIR accesses an address. It takes from the bus `memory` what the access
//!   before it left there, a value and its time, and puts there what it leaves itself. It looks up
//!   on the bus `gaps` how much later it is, so that no access takes what a later one left.
//! - Each row of the second AIR is an address. It puts there the first value, at time 0, and takes
//!   the last one.
//! - The third AIR provides the gaps.

use std::collections::BTreeMap;
use volgwain::{Air, Batch, Element, Error, Expr, Lookup, Message, Traces};

/// What an access does at its address.
#[derive(Clone, Copy)]
enum Access {
    Read(u32),
    Write(u32, u32),
}

/// The greatest gap between two accesses to an address.
const MOST_GAP: u32 = 16;

fn main() -> Result<(), Error> {
    let [address, old_value, old_time, new_value, new_time] = [0, 1, 2, 3, 4].map(Expr::main);
    let gap = new_time.clone() - old_time.clone() - 1;
    let accesses = Air::new([
        Lookup::on_bus("memory", [Message::query([address.clone(), old_value, old_time], -1)]),
        Lookup::on_bus("memory", [Message::query([address, new_value, new_time], 1)]),
        Lookup::on_bus("gaps", [Message::query([gap], 1)]),
    ])?;
    let [address, first_value, last_value, last_time] = [0, 1, 2, 3].map(Expr::main);
    let first = [address.clone(), first_value, Expr::constant(0)];
    let addresses = Air::new([
        Lookup::on_bus("memory", [Message::query(first, 1)]),
        Lookup::on_bus("memory", [Message::query([address, last_value, last_time], -1)]),
    ])?;
    let provided = Message::provide([Expr::preprocessed(0)], Expr::main(0));
    let gaps = Air::new([Lookup::on_bus("gaps", [provided])])?;

    let program = [
        Access::Write(3, 20),
        Access::Read(3),
        Access::Write(1, 7),
        Access::Write(3, 21),
        Access::Read(1),
        Access::Read(3),
    ];
    let mut run = Run::of(&program);
    let rows = [run.accesses.len() / 5, run.addresses.len() / 4, run.uses.len()];
    let batch = Batch::new([(&accesses, rows[0]), (&addresses, rows[1]), (&gaps, rows[2])])?;
    let allowed: Vec<u32> = (0..MOST_GAP).collect();

    // a prover draws them once the traces are fixed, from a transcript of what it has sent
    let (alpha, beta) = (Element::new([1, 6, 1, 8]), Element::new([0, 3, 3, 9]));
    let traces = run.traces(&allowed);
    let witness = batch.prove(&traces, alpha, beta)?;
    batch.verify(&traces, alpha, beta, &witness)?;
    println!("{} accesses to {} addresses: accepted", rows[0], rows[1]);

    // the read in row 1 claims to have found 22 where 20 was written, and leaves it
    run.accesses[5 + 1] = 22;
    run.accesses[5 + 3] = 22;
    let traces = run.traces(&allowed);
    let witness = batch.prove(&traces, alpha, beta)?;
    let refusal = batch.verify(&traces, alpha, beta, &witness).expect_err("20 was written");
    println!("with another value read: {refusal}");
    let mismatch = batch.debug_check(&traces).expect_err("20 was written");
    println!("{mismatch}");
    Ok(())
}

/// The rows of a run.
struct Run {
    /// Rows `address old_value old_time new_value new_time`.
    accesses: Vec<u32>,
    /// Rows `address first_value last_value last_time`.
    addresses: Vec<u32>,
    /// How often each gap is used.
    uses: Vec<u32>,
}

impl Run {
    /// Runs the accesses one after the other, at times 1, 2 and so on. All memory is 0 at first.
    fn of(program: &[Access]) -> Self {
        let mut memory = BTreeMap::new();
        let (mut accesses, mut uses) = (Vec::new(), vec![0; MOST_GAP as usize]);
        for (&access, time) in program.iter().zip(1..) {
            let (Access::Read(address) | Access::Write(address, _)) = access;
            let (old_value, old_time) = memory.get(&address).copied().unwrap_or((0, 0));
            let new_value = match access {
                Access::Read(_) => old_value,
                Access::Write(_, value) => value,
            };
            accesses.extend([address, old_value, old_time, new_value, time]);
            uses[(time - old_time - 1) as usize] += 1;
            memory.insert(address, (new_value, time));
        }
        let row = |(address, (value, time)): (u32, (u32, u32))| [address, 0, value, time];
        Run { accesses, addresses: memory.into_iter().flat_map(row).collect(), uses }
    }

    fn traces<'a>(&'a self, allowed: &'a [u32]) -> [Traces<'a>; 3] {
        let gaps = Traces::new(&self.uses, 1).with_preprocessed(allowed, 1);
        [Traces::new(&self.accesses, 5), Traces::new(&self.addresses, 4), gaps]
    }
}
