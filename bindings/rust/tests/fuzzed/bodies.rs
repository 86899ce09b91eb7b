//! What the fuzz targets do with bytes. Whatever these are, each call answers, and its answers keep
//! the laws below.

use volgwain::{
    Air, AirWitness, Batch, Code, Count, Element, Error, Expr, Lookup, MODULUS, Message, Traces,
};

/// How far the lookups of an input came.
#[derive(Clone, Copy, Debug, PartialEq, Eq, PartialOrd, Ord)]
pub enum Reached {
    /// They are no lookups.
    Nothing,
    /// They are lookups, which make no batch, or do not fit the traces, or have no lawful flags.
    Lookups,
    /// They have a witness.
    Witness,
    /// It is accepted.
    Accepted,
}

/// Reads the bytes as lookups in JSON.
pub fn from_json(data: &[u8]) -> Reached {
    let Ok(text) = std::str::from_utf8(data) else { return Reached::Nothing };
    match Air::from_json(text) {
        Ok(air) => keeps_laws(&air, data),
        Err(refusal) => {
            is_one_of(&refusal, &[Code::BadText, Code::MalformedLookup, Code::BadTable]);
            assert!(!refusal.text().is_empty());
            Reached::Nothing
        }
    }
}

/// Makes lookups by the bytes, which are the code of a machine with a stack of expressions.
pub fn lookups(data: &[u8]) -> Reached {
    match Air::new(Machine::run(data)) {
        Ok(air) => keeps_laws(&air, data),
        Err(refusal) => {
            is_one_of(&refusal, &[Code::BadTable, Code::WeightOverflow]);
            Reached::Nothing
        }
    }
}

/// The lookups that are made so far, and what the next one is made of.
#[derive(Default)]
struct Machine {
    expressions: Vec<Expr>,
    messages: Vec<Message>,
    flags: Vec<Expr>,
    lookups: Vec<Lookup>,
}

impl Machine {
    fn run(data: &[u8]) -> Vec<Lookup> {
        let mut machine = Machine::default();
        let mut bytes = data.iter().copied();
        while let Some(code) = bytes.next() {
            machine.step(code, bytes.next().unwrap_or(0));
        }
        machine.lookups
    }

    fn step(&mut self, code: u8, number: u8) {
        let index = usize::from(number % 8);
        match code % 16 {
            0 => self.expressions.push(Expr::main(index)),
            1 => self.expressions.push(Expr::main_next(index)),
            2 => self.expressions.push(Expr::preprocessed(index % 4)),
            3 => self.expressions.push(Expr::public(index % 4)),
            4 => self.expressions.push([Expr::is_first_row, Expr::is_last_row][index % 2]()),
            5 => self.expressions.push(Expr::constant(i32::from(number) - 2)),
            6 => self.join(|left, right| left + right),
            7 => self.join(|left, right| left - right),
            8 => self.join(|left, right| left * right),
            9 => {
                let top = self.pop();
                self.expressions.push(-top);
            }
            10 => self.double(number),
            11 => self.message(number, Message::query),
            12 => self.message(number, |tuple, count| Message::query(tuple, -count)),
            13 => {
                let flag = self.pop();
                self.flags.push(flag);
            }
            14 => self.lookup(number, None),
            _ => self.lookup(number, Some(["keys", "values"][index % 2])),
        }
    }

    fn pop(&mut self) -> Expr {
        self.expressions.pop().unwrap_or_else(|| Expr::constant(1))
    }

    fn join(&mut self, by: impl Fn(Expr, Expr) -> Expr) {
        let (right, left) = (self.pop(), self.pop());
        self.expressions.push(by(left, right));
    }

    /// Adds the top of the stack to itself so often: it gets as many layers deeper, or less.
    fn double(&mut self, times: u8) {
        let top = self.pop();
        let sum = (0..times % 8).fold(top, |sum, _| sum.clone() + sum);
        self.expressions.push(sum);
    }

    /// A message of the last expressions, with a count before them.
    fn message(&mut self, number: u8, make: impl Fn(Vec<Expr>, Count) -> Message) {
        let tuple = (0..number % 4).map(|_| self.pop()).collect();
        let weight = if number == 255 { u64::MAX } else { u64::from(number / 64) };
        let count = Count::bounded(self.pop(), weight);
        self.messages.push(make(tuple, count));
    }

    /// A lookup of all messages; with flags, as far as there are any.
    fn lookup(&mut self, number: u8, bus: Option<&str>) {
        let (messages, flags) = (self.messages.drain(..), self.flags.drain(..));
        self.lookups.push(if number < 128 {
            let messages: Vec<Message> = messages.collect();
            match bus {
                Some(bus) => Lookup::on_bus(bus, messages),
                None => Lookup::local(messages),
            }
        } else {
            let branches = messages.zip(flags).map(|(message, flag)| message.when(flag));
            match bus {
                Some(bus) => Lookup::exclusive_on_bus(bus, branches),
                None => Lookup::exclusive_local(branches),
            }
        });
    }
}

/// How high the traces are, and how wide.
const HEIGHT: usize = 4;
const WIDTHS: [usize; 3] = [8, 4, 4];

/// The laws of an AIR's lookups, over traces with cells that are made of the bytes.
fn keeps_laws(air: &Air, data: &[u8]) -> Reached {
    let again = Air::new(air.lookups());
    assert_eq!(again.as_ref(), Ok(air), "an AIR is that of its lookups");
    match air.degrees() {
        Ok(degrees) => assert_eq!(degrees.len(), air.len()),
        Err(refusal) => is_one_of(&refusal, &[Code::DegreeOverflow]),
    }

    let cells = |start: usize, width: usize| -> Vec<u32> {
        let cell = |i: usize| data.get((start + 7 * i) % data.len().max(1)).map_or(0, |it| it % 3);
        (0..width).map(|i| u32::from(cell(i))).collect()
    };
    let main = cells(0, HEIGHT * WIDTHS[0]);
    let (preprocessed, public) = (cells(1, HEIGHT * WIDTHS[1]), cells(2, WIDTHS[2]));
    let traces = Traces::new(&main, WIDTHS[0])
        .with_preprocessed(&preprocessed, WIDTHS[1])
        .with_public_values(&public);

    finds_what_does_not_balance(air, &traces);
    verifies_what_is_generated(air, &traces);
    match air.pack(4) {
        Ok(packed) => {
            assert!(packed.len() <= air.len());
            let balance = |air: &Air| volgwain::debug_check(std::slice::from_ref(air), &[traces]);
            assert_eq!(balance(&packed).is_ok(), balance(air).is_ok(), "packing keeps messages");
        }
        Err(refusal) => {
            let known = [Code::TupleWidths, Code::WeightOverflow, Code::DegreeOverflow];
            is_one_of(&refusal, &[known.as_slice(), &[Code::BadTable]].concat());
        }
    }
    match Batch::new([(air, HEIGHT)]) {
        Ok(batch) => proves(&batch, &traces, data),
        Err(refusal) => {
            is_one_of(&refusal, &[Code::BusWidths, Code::TupleWidths, Code::HeightBound]);
            Reached::Lookups
        }
    }
}

/// The laws of what is found: the table and the mismatch say what the debug check says.
fn finds_what_does_not_balance(air: &Air, traces: &Traces<'_>) {
    let (airs, traces) = (std::slice::from_ref(air), [*traces]);
    let table = volgwain::bus_table(airs, &traces, 2);
    let found = volgwain::mismatch(airs, &traces, usize::MAX);
    match volgwain::debug_check(airs, &traces) {
        Err(refusal) if refusal.code() != Code::Mismatch => {
            assert_eq!(table.as_ref(), Err(&refusal));
            assert_eq!(found, Err(refusal));
        }
        verdict => {
            let (table, found) = (table.expect("a table"), found.expect("what is found"));
            let text = verdict.err().map(|refusal| refusal.to_string());
            assert_eq!(table.iter().any(|group| group.unbalanced > 0), text.is_some());
            assert_eq!(found.map(|mismatch| mismatch.to_string()), text);
            for group in &table {
                assert_eq!(group.first.len(), group.unbalanced.min(2));
                assert!(group.first.iter().all(|it| it.net != 0 && it.places.len() <= 2));
            }
        }
    }
}

/// The laws of challenges of one's own: lookups that do not fit are refused, what is generated is
/// satisfied, and over no rows no terminal is.
fn verifies_what_is_generated(air: &Air, traces: &Traces<'_>) {
    let challenge = |at: u32| [Element::new([9, 2, 6, 5 + at]), Element::new([3, 1, at, 15])];
    let own: Vec<[Element; 2]> = (0..).map(challenge).take(air.len()).collect();
    let fault = air.fit_fault(traces).expect("cells make rows");
    match air.generate(traces, &own) {
        Ok(witness) => {
            let part = witness.air(0).expect("it has one part");
            assert_eq!(air.verify(traces, &own, &part), Ok(()));
            assert_eq!(fault, None);
        }
        Err(refusal) => assert_eq!(fault.is_some(), refusal.code() == Code::DoesNotFit),
    }
    let no_rows = Traces::new(&[], WIDTHS[0])
        .with_preprocessed(&[], WIDTHS[1])
        .with_public_values(traces.public_values);
    let terminal = Some(Element::from(5));
    let part = AirWitness { auxiliary: &[], width: air.len() + 1, terminal };
    assert!(air.verify(&no_rows, &own, &part).is_err(), "a terminal over no rows");
}

/// The laws of a batch of one AIR: what is proved is accepted if it balances, and no witness is with
/// another cell.
fn proves(batch: &Batch, traces: &Traces<'_>, data: &[u8]) -> Reached {
    let (alpha, beta) = (Element::new([9, 2, 6, 5]), Element::new([3, 1, 4, 15]));
    let traces = [*traces];
    let witness = match batch.prove(&traces, alpha, beta) {
        Ok(witness) => witness,
        Err(refusal) => {
            let of_flags = [Code::FlagNotBoolean, Code::FlagsNotExclusive];
            let others = [Code::TraceMismatch, Code::VanishingDenominator];
            is_one_of(&refusal, &[of_flags, others].concat());
            return Reached::Lookups;
        }
    };
    let verdict = batch.verify(&traces, alpha, beta, &witness);
    if let Err(refusal) = &verdict {
        is_one_of(refusal, &[Code::TerminalSum]);
        assert!(batch.debug_check(&traces).is_err(), "what balances is accepted");
    }
    if let Some(part) = witness.air(0).filter(|part| !part.auxiliary.is_empty()) {
        let mut cells = part.auxiliary.to_vec();
        let at = data.iter().map(|&it| usize::from(it)).sum::<usize>() % cells.len();
        let [first, rest @ ..] = cells[at].coefficients();
        cells[at] = Element::new([(first + 1) % MODULUS, rest[0], rest[1], rest[2]]);
        let changed = AirWitness { auxiliary: &cells, ..part };
        let changed = volgwain::Witness::new([changed]);
        let refusal = batch.verify(&traces, alpha, beta, &changed);
        let code = refusal.expect_err("another cell").code();
        assert_eq!(code, Code::ConstraintFailed, "at {at}");
    }
    if verdict.is_ok() { Reached::Accepted } else { Reached::Witness }
}

/// Fails if a refusal has another code.
fn is_one_of(refusal: &Error, codes: &[Code]) {
    assert!(codes.contains(&refusal.code()), "{refusal:?}");
}
