//! Stands in for the port's library, by the model itself: only for trying `compare` (see try-stubs).
mod image;
mod kernel;

use kernel::{Call, Kernel};

#[repr(C)]
pub struct NtkOutcome {
    pub answer: u16,
    pub further: u16,
    pub runs: u32,
}

/// # Safety
/// `image` points to `length` bytes, or `length` is 0.
unsafe fn lent(image: *mut u8, length: usize) -> &'static mut [u8] {
    if length == 0 { &mut [] } else { std::slice::from_raw_parts_mut(image, length) }
}

/// # Safety
/// As `lent`.
#[no_mangle]
pub unsafe extern "C" fn ntk_fresh(image: *mut u8, length: usize) -> u32 {
    let (bytes, fresh) = (lent(image, length), Kernel::fresh().encode());
    if bytes.len() != fresh.len() {
        return 15;
    }
    bytes.copy_from_slice(&fresh);
    0
}

/// # Safety
/// As `lent`.
#[no_mangle]
pub unsafe extern "C" fn ntk_step(
    kind: u8, a: u32, b: u32, c: u32, d: u32, e: u32, f: u32, image: *mut u8, length: usize,
) -> NtkOutcome {
    let bytes = lent(image, length);
    let mut kernel = match Kernel::judge(bytes) {
        Ok(kernel) => kernel,
        Err(_) => return NtkOutcome { answer: 15, runs: 0, further: 0 },
    };
    let outcome = kernel.step(Call { kind, numbers: [a, b, c, d, e, f] });
    bytes.copy_from_slice(&kernel.encode());
    NtkOutcome { answer: outcome.answer as u16, runs: outcome.runs.map_or(0, |t| t as u32 + 1), further: outcome.further as u16 }
}
