//! Compares the port's static library with the model, from outside.
//!
//!     compare random  [CALLS]  [--seed S] [--longest L]
//!     compare damage  [IMAGES] [--seed S] [--all-bits T] [--each E]
//!     compare lengths          [--seed S] [--up-to L]
//!     compare kinds            [--seed S] [--tables T]
//!     compare fresh   [IMAGES] [--seed S] [--up-to L]
//!     compare tape FILE..
//!     compare record FILE   [--seed S] [--calls C] [--images I]
//!     compare all              [--seed S]
//!
//! S is a number or `now`. At the first difference the program tells it and exits with 1.

mod caller;
mod damage;
mod fresh;
mod image;
mod kernel;
mod met;
mod port;
mod random;
mod record;
mod tables;

use caller::Caller;
use image::{meaning, Column, COLUMNS, IMAGE};
use kernel::kinds::{body, read_call};
use kernel::rules::RULES;
use kernel::{Call, Kernel, NUMBERS};
use met::Met;
use port::{all_in_words, compare, fail, hex, step_both, step_on_null, tell_difference, tell_image, Difference, Lent, UNSOUND};
use random::{Random, BORDERS};
use std::time::Instant;

/// The longest bytes lent where a wrong length is tried.
const LONGEST: usize = IMAGE + 1000;

// ---------------------------------------------------------------------------------------------------
// random

/// Plays one sequence; the calls made so far are left in `calls`.
fn sequence(seed: u64, longest: usize, calls: &mut Vec<Call>, met: &mut Met) -> Result<(), (Kernel, Difference)> {
    let mut random = Random::new(seed);
    let start = tables::start(&mut random);
    let mut caller = Caller::new(&mut random);
    let mut kernel = start.clone();
    let mut lent = Lent::table(&start, seed as usize);
    for _ in 0..random.between(1, longest) {
        let call = caller.next(&mut random, &kernel);
        let before = kernel.clone();
        calls.push(call);
        match step_both(&mut kernel, &mut lent, call) {
            Ok(outcome) => met.note(&before, &kernel, call, outcome),
            Err(difference) => return Err((start, difference)),
        }
    }
    Ok(())
}

/// The first difference of a list of calls, if it has one.
fn replay(start: &Kernel, calls: &[Call]) -> Option<Difference> {
    let mut kernel = start.clone();
    let mut lent = Lent::table(start, 0);
    calls.iter().find_map(|&call| step_both(&mut kernel, &mut lent, call).err())
}

/// Leaves out calls, many at a time and then single ones, as long as a difference stays.
fn shortened(start: &Kernel, calls: &[Call]) -> Vec<Call> {
    let mut calls = calls.to_vec();
    let mut size = calls.len() / 2;
    while size > 0 {
        let mut from = 0;
        while from < calls.len() {
            let mut fewer = calls.clone();
            fewer.drain(from..(from + size).min(calls.len()));
            if replay(start, &fewer).is_some() { calls = fewer } else { from += size }
        }
        size /= 2;
    }
    calls
}

fn tell_start(start: &Kernel) {
    if *start == Kernel::fresh() {
        println!("  from the fresh table");
    } else {
        println!("  from this table (bytes that are not 0):");
        tell_image(&start.encode());
    }
}

fn random_calls(count: usize, seed: u64, longest: usize) {
    println!("random: {count} calls, seed {seed}");
    let began = Instant::now();
    let mut met = Met::default();
    let (mut made, mut sequences) = (0, 0);
    while made < count {
        let own = seed.wrapping_add(sequences);
        let mut calls = vec![];
        if let Err((start, difference)) = sequence(own, longest, &mut calls, &mut met) {
            println!("DIFFERENCE in the sequence with seed {own} (again: random 1 --seed {own} --longest {longest})");
            tell_start(&start);
            println!("  calls so far: {}", all_in_words(&calls));
            tell_difference(&difference);
            let short = shortened(&start, &calls);
            if let Some(difference) = replay(&start, &short) {
                println!("a shorter list with a difference: {}", all_in_words(&short));
                tell_difference(&difference);
            }
            fail();
        }
        made += calls.len();
        sequences += 1;
    }
    met.tell();
    tell_speed(made, "calls", began);
    println!("  {made} calls in {sequences} sequences agree");
}

fn tell_speed(made: usize, what: &str, began: Instant) {
    let seconds = began.elapsed().as_secs_f64();
    println!("  {seconds:.1} s, {:.0} {what} a second", made as f64 / seconds);
}

// ---------------------------------------------------------------------------------------------------
// damage

/// A table that calls reach, worked out by the model alone, and how.
fn reached(random: &mut Random) -> (Kernel, Caller) {
    let mut kernel = tables::start(random);
    let mut caller = Caller::new(random);
    for _ in 0..random.between(10, 300) {
        let call = caller.next(random, &kernel);
        kernel.step(call);
    }
    (kernel, caller)
}

/// The richest of some such tables: that with most numbers other than 0, of each column no more than some.
fn rich(random: &mut Random) -> (Kernel, Caller) {
    let filled = |image: &[u8]| {
        let of = |column: &Column| (0..column.count).filter(|&i| column.get(image, i) != 0).count().min(20);
        COLUMNS.iter().map(of).sum::<usize>()
    };
    (0..8).map(|_| reached(random)).max_by_key(|(kernel, _)| filled(&kernel.encode())).unwrap()
}

#[derive(Default)]
struct Judged {
    sound: usize,
    unsound: usize,
    alone: [usize; RULES.len()],
    with_others: [usize; RULES.len()],
    columns: [usize; COLUMNS.len()],
}

impl Judged {
    fn note(&mut self, broken: &[usize]) {
        self.unsound += 1;
        for &rule in broken {
            if broken.len() == 1 { self.alone[rule] += 1 } else { self.with_others[rule] += 1 }
        }
    }

    fn note_columns(&mut self, image: &[u8], damaged: &[u8]) {
        for (count, column) in self.columns.iter_mut().zip(COLUMNS) {
            *count += usize::from(column.differs(image, damaged));
        }
    }

    fn tell(&self) {
        println!("  {} unsound, {} sound; rules broken alone, with others:", self.unsound, self.sound);
        for (rule, name) in RULES.iter().enumerate() {
            println!("  {:8} {:8}  {name}", self.alone[rule], self.with_others[rule]);
        }
        println!("  damaged columns:");
        for (column, count) in COLUMNS.iter().zip(self.columns) {
            println!("  {count:8}  {}", format!("{} {}", column.of, column.name).trim_start());
        }
    }
}

/// One call on a damaged image: 15 and unchanged bytes where the model finds it unsound, else its step.
fn on_damaged(lent: &mut Lent, image: &[u8], call: Call, judged: &mut Judged) -> Result<(), (Difference, Vec<usize>)> {
    lent.lend(image);
    match Kernel::judge(image) {
        Err(broken) => {
            judged.note(&broken);
            compare(lent, call, UNSOUND, image).map_err(|difference| (difference, broken))
        }
        Ok(mut kernel) => {
            judged.sound += 1;
            step_both(&mut kernel, lent, call).map(|_| ()).map_err(|difference| (difference, vec![]))
        }
    }
}

fn damaged_images(count: usize, seed: u64, all_bits: usize, each: usize) {
    println!("damage: {count} images, seed {seed}, tables with every single bit: {all_bits}, then {each} images of each table");
    let began = Instant::now();
    let mut judged = Judged::default();
    let (mut made, mut tables) = (0, 0u64);
    let mut other = Kernel::fresh().encode();
    while made < count {
        let own = seed.wrapping_add(tables);
        let mut random = Random::new(own);
        let every_bit = tables < all_bits as u64;
        let (kernel, mut caller) = if every_bit { rich(&mut random) } else { reached(&mut random) };
        let image = kernel.encode();
        let mut lent = Lent::new(&image, own as usize);
        let damages = if every_bit { 8 * IMAGE } else { each }.min(count - made);
        for i in 0..damages {
            let damaged = if every_bit { one_bit(&image, i) } else { damage::damaged(&mut random, &kernel, &other) };
            let call = caller.next(&mut random, &kernel);
            judged.note_columns(&image, &damaged);
            if let Err((difference, broken)) = on_damaged(&mut lent, &damaged, call, &mut judged) {
                println!("DIFFERENCE at table {tables} (seed {own}), damage {i}");
                tell_damage(&image, &damaged, &broken);
                tell_difference(&difference);
                println!("  the whole damaged image: {}", hex(&damaged));
                fail();
            }
        }
        other = image;
        made += damages;
        tables += 1;
    }
    judged.tell();
    tell_speed(made, "images", began);
    println!("  {made} damaged images of {tables} tables agree");
}

fn one_bit(image: &[u8], bit: usize) -> Vec<u8> {
    let mut damaged = image.to_vec();
    damaged[bit / 8] ^= 1 << (bit % 8);
    damaged
}

fn tell_damage(image: &[u8], damaged: &[u8], broken: &[usize]) {
    println!("  the table before its damage (bytes that are not 0):");
    tell_image(image);
    println!("  damaged bytes:");
    for i in (0..IMAGE).filter(|&i| image[i] != damaged[i]) {
        println!("    {i:4} = {:3}, was {:3}  {}", damaged[i], image[i], meaning(i));
    }
    if broken.is_empty() {
        println!("  the model finds the damaged table sound");
    } else {
        let names: Vec<&str> = broken.iter().map(|&rule| RULES[rule]).collect();
        println!("  the model finds broken: {}", names.join("; "));
    }
}

// ---------------------------------------------------------------------------------------------------
// lengths

/// Images of every other length: 15, bytes unchanged. Null with length 0.
fn lengths(seed: u64, up_to: usize) {
    println!("lengths: 0 to {up_to} without {IMAGE}, seed {seed}");
    let mut random = Random::new(seed);
    let rich = rich(&mut random).0.encode();
    let mut made = 0;
    for length in (0..=up_to).filter(|&length| length != IMAGE) {
        for filling in 0..4 {
            let image: Vec<u8> = (0..length)
                .map(|i| match filling {
                    0 => 0,
                    1 => rich.get(i).copied().unwrap_or(0),
                    2 => rich[i % IMAGE],
                    _ => random.next() as u8,
                })
                .collect();
            let kind = if filling == 1 { 0x0B } else { random.next() as u8 };
            let call = Call { kind, numbers: random.borders() };
            let mut lent = Lent::new(&image, length);
            made += 1;
            if let Err(difference) = compare(&mut lent, call, UNSOUND, &image) {
                println!("DIFFERENCE at length {length}, filling {filling}, seed {seed}");
                tell_difference(&difference);
                fail();
            }
        }
    }
    null_images(&mut random);
    println!("  {made} images of wrong length agree, null with length 0 too");
}

fn null_images(random: &mut Random) {
    for kind in 0..=255u8 {
        let call = Call { kind, numbers: random.borders() };
        let port = step_on_null(call);
        if port != UNSOUND {
            println!("DIFFERENCE at null with length 0");
            tell_difference(&Difference { call, model: UNSOUND, port, byte: None, guards_hold: true });
            fail();
        }
    }
}

// ---------------------------------------------------------------------------------------------------
// kinds

/// A kind with border numbers: every combination of them where the kind uses no more than `all`, else of each
/// two that stand side by side.
fn calls_of_kind(random: &mut Random, kind: u8, all: usize) -> Vec<Call> {
    let served = kind < 0x80 || matches!(kind, 0x93 | 0xB3 | 0xC3);
    let uses = if served { body(kind).map_or(1, |widths| widths.len()) } else { 1 };
    let (size, windows) = if uses <= all { (uses, 1) } else { (2, uses) };
    let mut calls = vec![];
    for place in 0..BORDERS.len().pow(size as u32) * windows {
        let mut numbers: [u32; NUMBERS] = random.borders();
        for number in numbers.iter_mut().take(uses) {
            if random.chance(80) {
                *number = random.below(4) as u32;
            }
        }
        let mut rest = place / windows;
        for i in 0..size {
            numbers[(place + i) % uses] = BORDERS[rest % BORDERS.len()];
            rest /= BORDERS.len();
        }
        calls.push(Call { kind, numbers });
    }
    calls
}

/// Fresh tables, locked ones, rich ones; few of these with none running.
fn table_for_kinds(random: &mut Random, n: usize) -> Kernel {
    match n {
        0 => return Kernel::fresh(),
        1 => return Kernel { tick: u32::MAX, depth: 250, ..Kernel::fresh() },
        _ => {}
    }
    loop {
        let kernel = if n % 2 == 0 { tables::table(random) } else { reached(random).0 };
        if kernel.running.is_some() || n % 8 == 7 {
            return kernel;
        }
    }
}

fn kinds(seed: u64, tables: usize) {
    println!("kinds: 0 to 255 on {tables} tables, seed {seed}");
    let began = Instant::now();
    let mut made = 0;
    let mut met = Met::default();
    for n in 0..tables {
        let own = seed.wrapping_add(n as u64);
        let mut random = Random::new(own);
        let start = table_for_kinds(&mut random, n);
        let image = start.encode();
        let mut lent = Lent::new(&image, n);
        for kind in 0..=255 {
            for call in calls_of_kind(&mut random, kind, if n == 2 || n == 3 { 3 } else { 2 }) {
                let mut kernel = start.clone();
                lent.lend(&image);
                made += 1;
                match step_both(&mut kernel, &mut lent, call) {
                    Ok(outcome) => met.note(&start, &kernel, call, outcome),
                    Err(difference) => {
                        println!("DIFFERENCE at table {n} (seed {own})");
                        tell_start(&start);
                        tell_difference(&difference);
                        fail();
                    }
                }
            }
        }
    }
    met.tell();
    tell_speed(made, "calls", began);
    println!("  {made} calls agree");
}

// ---------------------------------------------------------------------------------------------------
// tape

/// Plays tapes through both, to look again at a list of calls.
fn tapes(files: &[String]) {
    for file in files {
        let tape = std::fs::read(file).expect("a tape file");
        let (mut rest, mut calls) = (&tape[..], vec![]);
        while let Some((call, after)) = read_call(rest) {
            calls.push(call);
            rest = after;
        }
        if let Some(difference) = replay(&Kernel::fresh(), &calls) {
            println!("DIFFERENCE in {file}");
            tell_difference(&difference);
            fail();
        }
        println!("{file}: {} calls agree", calls.len());
    }
}

// ---------------------------------------------------------------------------------------------------

/// The value of a flag.
fn flag(arguments: &[String], name: &str) -> Option<u64> {
    let at = arguments.iter().position(|argument| argument == name)?;
    let value = arguments.get(at + 1).unwrap_or_else(|| panic!("{name} needs a number"));
    if value == "now" {
        let now = std::time::SystemTime::now().duration_since(std::time::UNIX_EPOCH).unwrap();
        return Some(now.as_nanos() as u64 & 0xFFFF_FFFF_FFFF);
    }
    Some(value.parse().unwrap_or_else(|_| panic!("{name} needs a number")))
}

fn main() {
    let arguments: Vec<String> = std::env::args().skip(1).collect();
    let mode = arguments.first().map_or("", |mode| mode.as_str());
    let count = |usual: usize| arguments.get(1).and_then(|n| n.parse().ok()).unwrap_or(usual);
    let number = |name: &str, usual: usize| flag(&arguments, name).map_or(usual, |n| n as usize);
    let seed = flag(&arguments, "--seed").unwrap_or(1);
    let damage = |images: usize| {
        // single bits are at most half of the images
        damaged_images(images, seed, number("--all-bits", images / (2 * IMAGE * 8)), number("--each", 50));
    };
    match mode {
        "random" => random_calls(count(1_000_000), seed, number("--longest", 400)),
        "damage" => damage(count(100_000)),
        "lengths" => lengths(seed, number("--up-to", LONGEST)),
        "kinds" => kinds(seed, number("--tables", 40)),
        "fresh" => fresh::fresh(count(1000), seed, number("--up-to", LONGEST)),
        "tape" => tapes(&arguments[1..]),
        "record" => record::record(&arguments[1], number("--calls", 100_000), number("--images", 10_000), seed),
        "all" => {
            fresh::fresh(1000, seed, LONGEST);
            lengths(seed, LONGEST);
            kinds(seed, 40);
            damage(100_000);
            random_calls(1_000_000, seed, 400);
        }
        _ => {
            println!("usage: compare random [N] | damage [N] | lengths | kinds | fresh [N] | tape FILE.. | record FILE | all; flags: see compare.rs");
            std::process::exit(2);
        }
    }
}
