//! The fresh image, as the port writes it.
use crate::image::{meaning, IMAGE};
use crate::kernel::{Call, Kernel};
use crate::port::{compare, fail, freshen_null, tell_difference, Lent, UNSOUND};
use crate::random::Random;

/// Bytes of any contents become the fresh image, those of a wrong length stay; zeroed memory is no image.
pub fn fresh(images: usize, seed: u64, up_to: usize) {
    println!("fresh: {images} images and every other length up to {up_to}, seed {seed}");
    let mut random = Random::new(seed);
    let model = Kernel::fresh().encode();
    for n in 0..images {
        writes(some_bytes(&mut random, IMAGE, n), n, 0, &model);
    }
    for length in (0..=up_to).filter(|&length| length != IMAGE) {
        let bytes = some_bytes(&mut random, length, length);
        writes(bytes.clone(), length, 15, &bytes);
    }
    if freshen_null() != 15 {
        println!("DIFFERENCE at null with length 0");
        fail();
    }
    zeroed(&mut random);
    println!("  all agree, null with length 0 too, and zeroed memory gets 15 from every kind");
}

/// Zeroes, ones, or any.
fn some_bytes(random: &mut Random, length: usize, n: usize) -> Vec<u8> {
    match n % 8 {
        0 => vec![0; length],
        1 => vec![255; length],
        _ => (0..length).map(|_| random.next() as u8).collect(),
    }
}

/// The port's answer and the bytes afterwards are these.
fn writes(bytes: Vec<u8>, shift: usize, answer: u32, after: &[u8]) {
    let mut lent = Lent::new(&bytes, shift);
    let given = lent.freshen();
    let byte = (0..after.len()).find(|&i| lent.image()[i] != after[i]);
    if given == answer && byte.is_none() && lent.guards_hold() {
        return;
    }
    println!("DIFFERENCE at {} bytes: model {answer}, port {given}", bytes.len());
    match byte {
        Some(i) => println!("  first differing byte: {i} ({}): model {}, port {}", meaning(i), after[i], lent.image()[i]),
        None => println!("  the images are equal; outside them it wrote: {}", !lent.guards_hold()),
    }
    fail();
}

/// "a default quantum, 1 to 65,535": that of zeroed memory is 0.
fn zeroed(random: &mut Random) {
    let zeroes = vec![0; IMAGE];
    let mut lent = Lent::new(&zeroes, 0);
    for kind in 0..=255 {
        let call = Call { kind, numbers: random.borders() };
        if let Err(difference) = compare(&mut lent, call, UNSOUND, &zeroes) {
            println!("DIFFERENCE on zeroed memory");
            tell_difference(&difference);
            fail();
        }
    }
}
