//! Compares the debug check with a plain Rust model of the same multiset, on the same traces.
//!
//! The model keeps a map from owned tuples to their nets and locations, and sorts all tuples by
//! their texts before it names the first unbalanced one, as the Rust crate does. A line for each
//! trace has the nanoseconds for a row and lookup on both sides, the least of several runs, and
//! their ratio.
use std::collections::HashMap;
use std::hash::{BuildHasherDefault, Hash, Hasher};
use std::hint::black_box;
use std::time::Instant;

unsafe extern "C" {
    fn debug_check(numbers: *const u32, length: usize, shape: u32, rounds: u32, skip: u32) -> u32;
}

const MODULUS: u32 = 2_013_265_921;

/// A number below the modulus. The check adds and compares and writes texts; it never multiplies.
#[derive(Clone, Copy, PartialEq, Eq, Hash)]
struct Element(u32);

impl Element {
    fn new(n: u32) -> Element {
        Element(n % MODULUS)
    }

    fn plus(self, rhs: Element) -> Element {
        Element(((self.0 as u64 + rhs.0 as u64) % MODULUS as u64) as u32)
    }

    fn negative(self) -> Element {
        Element((MODULUS - self.0) % MODULUS)
    }
}

/// Mixes in each number by a product, as fast hashers do.
#[derive(Default)]
struct Mixer(u64);

impl Mixer {
    fn mix(&mut self, n: u64) {
        self.0 = (self.0.rotate_left(5) ^ n).wrapping_mul(0x517c_c1b7_2722_0a95);
    }
}

impl Hasher for Mixer {
    fn write(&mut self, bytes: &[u8]) {
        bytes.iter().for_each(|byte| self.mix(*byte as u64));
    }

    fn write_u32(&mut self, n: u32) {
        self.mix(n as u64);
    }

    fn write_usize(&mut self, n: usize) {
        self.mix(n as u64);
    }

    fn finish(&self) -> u64 {
        self.0.rotate_left(26)
    }
}

struct Location {
    lookup: usize,
    row: usize,
}

/// Tuples with their nets and where each is sent.
#[derive(Default)]
struct MultiSet {
    entries: HashMap<Vec<Element>, (Element, Vec<Location>), BuildHasherDefault<Mixer>>,
}

impl MultiSet {
    fn add(&mut self, tuple: Vec<Element>, multiplicity: Element, location: Location) {
        if multiplicity.0 == 0 {
            return;
        }
        let (net, locations) = self.entries.entry(tuple).or_insert_with(|| (Element(0), Vec::new()));
        *net = net.plus(multiplicity);
        locations.push(location);
    }

    /// The text of the unbalanced tuple that is least by the texts of its elements.
    fn mismatch(&self, label: &str) -> Option<String> {
        let texts = |tuple: &[Element]| tuple.iter().map(|x| x.0.to_string()).collect::<Vec<_>>();
        let mut entries: Vec<_> = self.entries.iter().collect();
        entries.sort_by(|(a, _), (b, _)| texts(a).cmp(&texts(b)));
        let (tuple, (net, locations)) = entries.into_iter().find(|(_, (net, _))| net.0 != 0)?;
        let places: Vec<String> = locations
            .iter()
            .map(|place| format!("instance 0 lookup {} row {}", place.lookup, place.row))
            .collect();
        Some(format!(
            "Lookup mismatch ({label}): tuple [{}] has net multiplicity {} at {}",
            texts(tuple).join(", "),
            net.0,
            places.join("; ")
        ))
    }
}

/// A lookup of each shape: on a row, its tuples by their columns, each with a count.
fn send(shape: u32, lookup: usize, row: &[Element]) -> Vec<(Vec<Element>, Element)> {
    if shape == 0 {
        return vec![(vec![row[0]], Element(1)), (vec![row[1]], row[2].negative())];
    }
    let count = if lookup < 4 { row[32] } else { row[32].negative() };
    vec![(row[4 * lookup..4 * lookup + 4].to_vec(), count)]
}

fn checksum(text: &str) -> u32 {
    text.bytes().fold(1, |sum: u32, byte| sum.wrapping_mul(31).wrapping_add(byte as u32))
}

/// The same answer as `debug_check`.
fn check(numbers: &[u32], shape: u32) -> u32 {
    let (width, lookups, label) = match shape {
        0 => (3, 1, "instance 0 local lookup 0"),
        _ => (33, 8, "global lookup 'bus'"),
    };
    let values: Vec<Element> = numbers.iter().map(|n| Element::new(*n)).collect();
    let mut set = MultiSet::default();
    for lookup in 0..lookups {
        for (place, row) in values.chunks(width).enumerate() {
            for (tuple, count) in send(shape, lookup, row) {
                set.add(tuple, count, Location { lookup, row: place });
            }
        }
    }
    set.mismatch(label).map_or(0, |text| checksum(&text))
}

fn next(state: &mut u32) -> u32 {
    *state = state.wrapping_mul(1_664_525).wrapping_add(1_013_904_223);
    *state >> 4
}

/// A trace on which everything balances. The tuples that are provided all differ.
fn balanced(shape: u32, rows: usize) -> Vec<u32> {
    let mut state = 1;
    let provided: Vec<u32> = (0..rows).map(|i| 7_001 * i as u32 + 13).collect();
    let mut numbers = Vec::new();
    if shape == 0 {
        let reads: Vec<usize> = (0..rows).map(|_| next(&mut state) as usize % rows).collect();
        let mut counts = vec![0; rows];
        reads.iter().for_each(|place| counts[*place] += 1);
        for row in 0..rows {
            numbers.extend([provided[reads[row]], provided[row], counts[row]]);
        }
    } else {
        let sent: Vec<[u32; 16]> = (0..rows).map(|_| [(); 16].map(|_| next(&mut state))).collect();
        for row in 0..rows {
            numbers.extend(sent[row]);
            numbers.extend(sent[(row * 40_503 + 7) % rows]);
            numbers.push(3);
        }
    }
    numbers
}

fn compare(name: &str, numbers: &[u32], shape: u32, rows: usize, balances: bool) {
    let runs = if rows > 1 << 16 { 4 } else { 7 };
    let (mut least_proved, mut least_plain) = (f64::MAX, f64::MAX);
    for _ in 0..runs {
        let start = Instant::now();
        let wanted = black_box(check(black_box(numbers), shape));
        least_plain = least_plain.min(start.elapsed().as_secs_f64());
        let start = Instant::now();
        let found = unsafe { debug_check(numbers.as_ptr(), numbers.len(), shape, 1, 0) };
        least_proved = least_proved.min(start.elapsed().as_secs_f64());
        assert_eq!(wanted, found, "{name}: the two sides disagree");
        assert_eq!(wanted == 0, balances, "{name}");
    }
    let each = 1e9 / (rows as f64 * if shape == 0 { 1.0 } else { 8.0 });
    println!(
        "{name:44} {:9.0} {:9.0} {:7.3}",
        least_proved * each,
        least_plain * each,
        least_proved / least_plain
    );
}

fn main() {
    println!("{:44} {:>9} {:>9} {:>7}", "trace", "check ns", "model ns", "ratio");
    for shape in [0, 1] {
        for rows in [1 << 14, 1 << 18] {
            let lookups = ["one local lookup", "eight lookups on a bus"][shape as usize];
            let mut numbers = balanced(shape, rows);
            compare(&format!("{lookups}, {rows} rows, balanced"), &numbers, shape, rows, true);
            let column = if shape == 0 { 3 * (rows / 2) + 2 } else { 33 * (rows / 2) + 9 };
            numbers[column] += 1;
            compare(&format!("{lookups}, {rows} rows, unbalanced"), &numbers, shape, rows, false);
        }
    }
}
