//! Writes calls with what the model gives, for a program that has no model beside it: tests/board/replay.c, which says how they stand there.
use crate::caller::Caller;
use crate::damage::damaged;
use crate::kernel::{Call, Kernel};
use crate::port::{expected, NtkOutcome, UNSOUND};
use crate::random::Random;
use crate::tables;
use std::fs::File;
use std::io::{BufWriter, Write};

/// A call, its outcome, and the bytes behind it.
struct Row(Call, NtkOutcome, Vec<u8>);

/// FNV-1a, of 64 bits.
fn hash(bytes: &[u8]) -> u64 {
    bytes.iter().fold(0xCBF2_9CE4_8422_2325, |sum, &byte| (sum ^ u64::from(byte)).wrapping_mul(0x100_0000_01B3))
}

/// An image with the calls on it.
fn write(file: &mut impl Write, image: &[u8], is_sound: bool, rows: &[Row]) {
    let mut bytes = vec![];
    bytes.extend((image.len() as u32).to_le_bytes());
    bytes.extend(image);
    bytes.push(u8::from(is_sound));
    bytes.extend((rows.len() as u32).to_le_bytes());
    for Row(call, outcome, after) in rows {
        bytes.push(call.kind);
        for number in call.numbers.iter().copied().chain([outcome.answer.into(), outcome.runs, outcome.further.into()]) {
            bytes.extend(number.to_le_bytes());
        }
        bytes.extend(hash(after).to_le_bytes());
    }
    file.write_all(&bytes).expect("room for the record");
}

fn step(kernel: &mut Kernel, call: Call) -> Row {
    let outcome = expected(kernel.step(call));
    Row(call, outcome, kernel.encode())
}

/// One call on any bytes.
fn write_any(file: &mut impl Write, image: &[u8], call: Call) {
    match Kernel::judge(image) {
        Ok(mut kernel) => write(file, image, true, &[step(&mut kernel, call)]),
        Err(_) => write(file, image, false, &[Row(call, UNSOUND, image.to_vec())]),
    }
}

/// Random calls in sequences, damaged images of the tables they end with, and images of other lengths.
pub fn record(name: &str, calls: usize, images: usize, seed: u64) {
    let mut file = BufWriter::new(File::create(name).expect("a file to record to"));
    let mut random = Random::new(seed);
    let mut other = Kernel::fresh().encode();
    let (mut made, mut broken) = (0, 0);
    while made < calls {
        let start = tables::start(&mut random);
        let (mut kernel, mut caller) = (start.clone(), Caller::new(&mut random));
        let mut rows = vec![];
        for _ in 0..random.between(1, 400) {
            let call = caller.next(&mut random, &kernel);
            rows.push(step(&mut kernel, call));
        }
        write(&mut file, &start.encode(), true, &rows);
        made += rows.len();
        while broken * calls < made.min(calls) * images {
            let call = caller.next(&mut random, &kernel);
            write_any(&mut file, &damaged(&mut random, &kernel, &other), call);
            broken += 1;
        }
        other = kernel.encode();
    }
    for length in (0..6000).step_by(73) {
        let image: Vec<u8> = (0..length).map(|i| other[i % other.len()]).collect();
        write_any(&mut file, &image, Call { kind: 0x0B, numbers: random.borders() });
    }
    println!("record: {made} calls, {broken} damaged images, seed {seed}");
}
