//! A range check: each value is a byte.
//!
//! Each row of the first AIR looks its value up on the bus `bytes`. The second AIR provides all
//! bytes, which are its preprocessed trace, and has in column 0 how often each is used.

use volgwain::{Air, Batch, Code, Element, Error, Expr, Lookup, Message, Traces};

fn main() -> Result<(), Error> {
    let query = Message::query([Expr::main(0)], 1);
    let asks = Air::new([Lookup::on_bus("bytes", [query])])?;
    let entry = Message::provide([Expr::preprocessed(0)], Expr::main(0));
    let provides = Air::new([Lookup::on_bus("bytes", [entry])])?;

    let values = [7, 255, 0, 7, 31, 7];
    let bytes: Vec<u32> = (0..256).collect();
    let uses = uses_of(&values);
    let batch = Batch::new([(&asks, values.len()), (&provides, bytes.len())])?;
    let table = Traces::new(&uses, 1).with_preprocessed(&bytes, 1);
    let traces = [Traces::new(&values, 1), table];

    // a prover draws them once the traces are fixed, from a transcript of what it has sent
    let (alpha, beta) = (Element::new([3, 1, 4, 1]), Element::new([2, 7, 1, 8]));
    let witness = batch.prove(&traces, alpha, beta)?;
    batch.verify(&traces, alpha, beta, &witness)?;
    println!("{} values are bytes: accepted", values.len());

    // 256 is none, and the table provides it nowhere
    let values = [256, 255, 0, 7, 31, 7];
    let traces = [Traces::new(&values, 1), table];
    let witness = batch.prove(&traces, alpha, beta)?;
    let refusal = batch.verify(&traces, alpha, beta, &witness).expect_err("256 is no byte");
    assert_eq!(refusal.code(), Code::TerminalSum);
    println!("with 256 in place of a 7: {refusal}");
    let mismatch = batch.debug_check(&traces).expect_err("256 is no byte");
    println!("{mismatch}");
    Ok(())
}

/// How often each byte is among the values.
fn uses_of(values: &[u32]) -> Vec<u32> {
    let mut uses = vec![0; 256];
    for &value in values {
        uses[value as usize] += 1;
    }
    uses
}
