//! The calls: who serves each, and what several of them share.
use super::{Call, Kernel, Outcome, Place, NUMBERS, TASKS};

/// Answer 0 or 14, or the number of the refusal.
pub type Answer = Result<u32, u32>;

pub fn refuse(when: bool, answer: u32) -> Result<(), u32> {
    if when { Err(answer) } else { Ok(()) }
}

/// "1: a task or object number beyond its range"
pub fn number(n: u32, range: usize) -> Result<usize, u32> {
    refuse(n as usize >= range, 1)?;
    Ok(n as usize)
}

/// "4: [..] a yes/no byte above 1"
pub fn yes_no(n: u32) -> Result<bool, u32> {
    refuse(n > 1, 4)?;
    Ok(n == 1)
}

impl Kernel {
    /// One call on a sound table. "0 and 14 alone change anything."
    pub fn step(&mut self, call: Call) -> Outcome {
        let mut further = 0;
        let answer = match self.serve(call, &mut further) {
            Ok(done) => {
                self.ready = self.ready_levels();
                // "Last, at depth 0, the first able task runs." "the first level is found by counting the word's
                // leading zeros": where none is able there are 64, which is no task's level.
                if self.depth == 0 {
                    let level = self.ready.leading_zeros();
                    self.running = self.able.iter().copied().find(|&t| u32::from(self.tasks[t].working) == level);
                }
                done
            }
            Err(refused) => refused,
        };
        Outcome { answer, runs: self.running, further }
    }

    /// "Order: 15, 5, 6, 1, 2 or 3, 4, then those of the call"
    fn serve(&mut self, call: Call, further: &mut u32) -> Answer {
        let [a, b, c, ..] = call.numbers;
        let interrupt = call.kind & 0x80 != 0;
        let kind = call.kind & 0x7F;
        // "5: made by an interrupt, and not a tick or a semaphore post"; of flags "a post by an interrupt no
        // longer 5", of messages "a post by an interrupt is not refused with 5"
        refuse(interrupt && kind != 0x0B && kind != 0x13 && kind != 0x33 && kind != 0x43, 5)?;
        match kind {
            0x01 => self.task_create(a, b, c),
            0x02 => self.task_delete(a),
            0x03 => self.change_priority(a, b),
            0x04 => self.suspend(a),
            0x05 => self.resume(a),
            0x06 => self.yield_(),
            0x07 => self.delay(a),
            0x08 => self.delay_resume(a),
            0x09 => self.lock(),
            0x0A => self.unlock(),
            0x0B => self.tick_call(),
            0x0D => self.set_default_quantum(a),
            _ => self.serve_object(kind, call.numbers, further),
        }
    }

    fn serve_object(&mut self, kind: u8, numbers: [u32; NUMBERS], further: &mut u32) -> Answer {
        let [a, b, c, d, e, f] = numbers;
        match kind {
            0x10 => self.semaphore_create(a, b),
            0x11 => self.semaphore_delete(a, b),
            0x12 => self.semaphore_wait(a, b, c),
            0x13 => self.semaphore_post(a),
            0x14 => self.semaphore_abort(a),
            0x20 => self.mutex_create(a),
            0x21 => self.mutex_delete(a, b),
            0x22 => self.mutex_wait(a, b, c),
            0x23 => self.mutex_post(a),
            0x24 => self.mutex_abort(a),
            0x30 => self.group_create(a, b),
            0x31 => self.group_delete(a, b),
            0x32 => self.group_wait(a, b, c, d, e, f),
            0x33 => self.group_post(a, b, c),
            0x34 => self.group_abort(a),
            0x40 => self.channel_create(a, b),
            0x41 => self.channel_delete(a, b),
            0x42 => self.channel_wait(a, b, c),
            0x43 => self.channel_post(a, b, c),
            0x44 => self.channel_abort(a),
            0x45 => self.channel_flush(a, further),
            // "1: [..] (port only) a call kind that the tape's list lacks"
            _ => Err(1),
        }
    }

    /// "6: yield, delay, semaphore or mutex wait, mutex post: none is running"; of flags "6 (a wait)"; of messages
    /// "Wait [..] as for semaphores"
    pub(super) fn caller(&self) -> Result<usize, u32> {
        self.running.ok_or(6)
    }

    pub(super) fn task(&self, n: u32) -> Result<usize, u32> {
        let t = number(n, TASKS)?;
        refuse(!self.tasks[t].used, 2)?;
        Ok(t)
    }

    /// "7: lock depth above 0: [..] suspend or delete of the running task"
    pub(super) fn runs_locked(&self, t: usize) -> bool {
        self.depth > 0 && self.running == Some(t)
    }

    /// "*Abort*: the first waiter leaves, the chain from the holder moves, the waiter becomes plain,
    /// outcome 2." "19 abort without a waiter", of any object
    pub(super) fn abort(&mut self, place: Place) -> Answer {
        let first = self.queue(place).first().copied().ok_or(19u32)?;
        self.end_wait(first, 2);
        Ok(0)
    }

    /// "*Forced delete*: the same for each waiter from the first, outcome 3"
    pub(super) fn send_off_all(&mut self, place: Place) {
        while let Some(first) = self.queue(place).first().copied() {
            self.end_wait(first, 3);
        }
    }
}
