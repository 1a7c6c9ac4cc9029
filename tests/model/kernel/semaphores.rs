//! Semaphores.
use super::calls::{number, refuse, yes_no, Answer};
use super::{Kernel, Place, Semaphore, State, OBJECTS};

impl Kernel {
    fn semaphore(&self, n: u32) -> Result<usize, u32> {
        let s = number(n, OBJECTS)?;
        refuse(!self.semaphores[s].used, 2)?;
        Ok(s)
    }

    pub(super) fn semaphore_create(&mut self, n: u32, count: u32) -> Answer {
        let s = number(n, OBJECTS)?;
        refuse(self.semaphores[s].used, 3)?;
        self.semaphores[s] = Semaphore { used: true, count, queue: vec![] };
        Ok(0)
    }

    pub(super) fn semaphore_delete(&mut self, n: u32, force: u32) -> Answer {
        let s = self.semaphore(n)?;
        let forced = yes_no(force)?;
        refuse(!forced && !self.semaphores[s].queue.is_empty(), 13)?;
        self.send_off_all(Place::Semaphore(s));
        self.semaphores[s] = Semaphore::default();
        Ok(0)
    }

    /// "A semaphore with count above 0 is taken (count less 1) [..] outcome 0, also when locked."
    /// "a wait 8 before 7"
    pub(super) fn semaphore_wait(&mut self, n: u32, block: u32, limit: u32) -> Answer {
        let caller = self.caller()?;
        let s = self.semaphore(n)?;
        let blocking = yes_no(block)?;
        if self.semaphores[s].count > 0 {
            self.semaphores[s].count -= 1;
            self.tasks[caller].outcome = 0;
            return Ok(0);
        }
        refuse(!blocking, 8)?;
        refuse(self.depth > 0, 7)?;
        self.block(caller, State::Semaphore(s), limit);
        Ok(14)
    }

    /// "*Semaphore post*: the first waiter is given it (outcome 0, count unchanged), else count plus 1."
    pub(super) fn semaphore_post(&mut self, n: u32) -> Answer {
        let s = self.semaphore(n)?;
        refuse(self.semaphores[s].count == u32::MAX, 11)?;
        match self.semaphores[s].queue.first().copied() {
            Some(first) => self.end_wait(first, 0),
            None => self.semaphores[s].count += 1,
        }
        Ok(0)
    }

    pub(super) fn semaphore_abort(&mut self, n: u32) -> Answer {
        let s = self.semaphore(n)?;
        self.abort(Place::Semaphore(s))
    }
}
