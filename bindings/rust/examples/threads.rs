//! One witness on several threads: by the crate's own, and by threads that the caller starts.
//!
//! The batch is a range check of 2^17 values below 2^16.

use std::thread;
use volgwain::{Air, Batch, Element, Error, Expr, Lookup, Message, Traces, Witness};

const VALUES: usize = 1 << 17;
const RANGE: usize = 1 << 16;

fn main() -> Result<(), Error> {
    let query = Message::query([Expr::main(0)], 1);
    let asks = Air::new([Lookup::on_bus("range", [query])])?;
    let entry = Message::provide([Expr::preprocessed(0)], Expr::main(0));
    let provides = Air::new([Lookup::on_bus("range", [entry])])?;

    let values: Vec<u32> = (0..VALUES).map(|i| (i * i % RANGE) as u32).collect();
    let mut uses = vec![0; RANGE];
    values.iter().for_each(|&value| uses[value as usize] += 1);
    let range: Vec<u32> = (0..RANGE as u32).collect();
    let table = Traces::new(&uses, 1).with_preprocessed(&range, 1);
    let traces = [Traces::new(&values, 1), table];

    // a prover draws them once the traces are fixed, from a transcript of what it has sent
    let (alpha, beta) = (Element::new([1, 4, 1, 4]), Element::new([2, 1, 3, 5]));

    // as many threads as there are processors, which a call starts and joins
    let batch = Batch::new([(&asks, VALUES), (&provides, RANGE)])?;
    let witness = batch.prove(&traces, alpha, beta)?;
    batch.verify(&traces, alpha, beta, &witness)?;
    println!("{VALUES} values, on the crate's threads: accepted");

    // one thread: the same witness
    let one = batch.clone().with_threads(1);
    assert_eq!(one.prove(&traces, alpha, beta)?, witness);
    println!("on one thread: the same witness");

    // threads of one's own, each of which works on one AIR; the parts are joined in order
    let parts: Vec<Witness> = thread::scope(|scope| {
        let one = &one;
        let start = |(air, traces)| scope.spawn(move || one.generate(air, traces, alpha, beta));
        let started: Vec<_> = traces.iter().enumerate().map(start).collect();
        started.into_iter().map(|it| it.join().expect("no panic")).collect::<Result<_, Error>>()
    })?;
    let joined = Witness::new(parts.iter().flat_map(Witness::airs));
    assert_eq!(joined, witness);
    println!("on a thread for each AIR: the same witness");
    Ok(())
}
