//! The port's library: the bytes lent to it, one comparison with the model, and reports of a difference.
use crate::image::{meaning, IMAGE};
use crate::kernel::kinds::write_call;
use crate::kernel::{Call, Kernel, Outcome};

#[repr(C)]
#[derive(Clone, Copy, PartialEq, Eq)]
pub struct NtkOutcome {
    pub answer: u16,
    pub further: u16,
    pub runs: u32,
}

extern "C" {
    fn ntk_fresh(image: *mut u8, length: usize) -> u32;
    fn ntk_step(kind: u8, a: u32, b: u32, c: u32, d: u32, e: u32, f: u32, image: *mut u8, length: usize) -> NtkOutcome;
}

/// The bytes lent to the port, between guards that it must not touch, at any alignment.
pub struct Lent {
    bytes: Vec<u8>,
    from: usize,
    to: usize,
}

const GUARD: usize = 24;
const GUARD_BYTE: u8 = 0xC3;

impl Lent {
    pub fn new(image: &[u8], shift: usize) -> Lent {
        let from = GUARD + shift % 8;
        let to = from + image.len();
        let mut bytes = vec![GUARD_BYTE; to + GUARD];
        bytes[from..to].copy_from_slice(image);
        Lent { bytes, from, to }
    }

    pub fn image(&self) -> &[u8] {
        &self.bytes[self.from..self.to]
    }

    pub fn lend(&mut self, image: &[u8]) {
        self.bytes[self.from..self.to].copy_from_slice(image);
    }

    pub fn guards_hold(&self) -> bool {
        let whole = |guard: &[u8]| guard.iter().all(|&byte| byte == GUARD_BYTE);
        whole(&self.bytes[..self.from]) && whole(&self.bytes[self.to..])
    }

    /// A sound table; the fresh one as the port itself writes it, over bytes that say nothing.
    pub fn table(kernel: &Kernel, shift: usize) -> Lent {
        if *kernel != Kernel::fresh() {
            return Lent::new(&kernel.encode(), shift);
        }
        let mut lent = Lent::new(&[0xA5; IMAGE], shift);
        lent.freshen();
        lent
    }

    /// The port's answer where it is to write the fresh image.
    pub fn freshen(&mut self) -> u32 {
        let image = &mut self.bytes[self.from..self.to];
        unsafe { ntk_fresh(image.as_mut_ptr(), image.len()) }
    }

    fn step(&mut self, call: Call) -> NtkOutcome {
        let image = &mut self.bytes[self.from..self.to];
        unsafe { step(call, image.as_mut_ptr(), image.len()) }
    }
}

unsafe fn step(call: Call, image: *mut u8, length: usize) -> NtkOutcome {
    let [a, b, c, d, e, f] = call.numbers;
    ntk_step(call.kind, a, b, c, d, e, f, image, length)
}

/// Null with length 0.
pub fn freshen_null() -> u32 {
    unsafe { ntk_fresh(std::ptr::null_mut(), 0) }
}

pub fn step_on_null(call: Call) -> NtkOutcome {
    unsafe { step(call, std::ptr::null_mut(), 0) }
}

// ---------------------------------------------------------------------------------------------------
// One comparison

pub struct Difference {
    pub call: Call,
    pub model: NtkOutcome,
    pub port: NtkOutcome,
    /// place, the model's byte, the port's byte
    pub byte: Option<(usize, u8, u8)>,
    pub guards_hold: bool,
}

pub fn expected(outcome: Outcome) -> NtkOutcome {
    NtkOutcome { answer: outcome.answer as u16, runs: outcome.runs.map_or(0, |t| t as u32 + 1), further: outcome.further as u16 }
}

/// "With 15 the task to run is none."
pub const UNSOUND: NtkOutcome = NtkOutcome { answer: 15, runs: 0, further: 0 };

/// Makes a call on the lent image and compares with the model's outcome and image.
pub fn compare(lent: &mut Lent, call: Call, model: NtkOutcome, after: &[u8]) -> Result<(), Difference> {
    let port = lent.step(call);
    let guards_hold = lent.guards_hold();
    if port == model && lent.image() == after && guards_hold {
        return Ok(());
    }
    let byte = (0..after.len()).find(|&i| lent.image()[i] != after[i]).map(|i| (i, after[i], lent.image()[i]));
    Err(Difference { call, model, port, byte, guards_hold })
}

/// A step of the model and of the port side by side.
pub fn step_both(kernel: &mut Kernel, lent: &mut Lent, call: Call) -> Result<Outcome, Difference> {
    let outcome = kernel.step(call);
    if !kernel.sound() {
        println!("the model itself left an unsound table after {}", in_words(call));
        std::process::exit(2);
    }
    compare(lent, call, expected(outcome), &kernel.encode())?;
    Ok(outcome)
}

// ---------------------------------------------------------------------------------------------------
// Reports

pub fn hex(bytes: &[u8]) -> String {
    bytes.iter().map(|byte| format!("{byte:02X}")).collect::<Vec<_>>().join(" ")
}

/// A call as tape hex, or with its numbers where a tape cannot carry it.
pub fn in_words(call: Call) -> String {
    match write_call(call) {
        Some(bytes) => hex(&bytes),
        None => format!("(port only: kind {:02X}, numbers {:?})", call.kind, call.numbers),
    }
}

pub fn all_in_words(calls: &[Call]) -> String {
    calls.iter().map(|&call| in_words(call)).collect::<Vec<_>>().join(" / ")
}

/// What of an image is not zero, with its meaning.
pub fn tell_image(image: &[u8]) {
    for (i, byte) in image.iter().enumerate().filter(|(_, &byte)| byte != 0) {
        println!("    {i:4} = {byte:3}  {}", meaning(i));
    }
}

pub fn tell_difference(difference: &Difference) {
    let outcome = |o: NtkOutcome| {
        let runs = if o.runs == 0 { "-".to_string() } else { o.runs.wrapping_sub(1).to_string() };
        format!("{} {runs}, further {}", o.answer, o.further)
    };
    println!("  call   {}", in_words(difference.call));
    println!("  model  {}", outcome(difference.model));
    println!("  port   {}", outcome(difference.port));
    match difference.byte {
        Some((i, model, port)) => {
            println!("  first differing byte: {i} ({}): model {model}, port {port}", meaning(i));
        }
        None => println!("  the images are equal"),
    }
    if !difference.guards_hold {
        println!("  the port wrote outside the image");
    }
}

pub fn fail() -> ! {
    std::process::exit(1)
}
