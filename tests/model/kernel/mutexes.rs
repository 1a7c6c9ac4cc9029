//! Mutexes.
use super::calls::{number, refuse, yes_no, Answer};
use super::{Kernel, Mutex, Place, State, MOST, OBJECTS};

impl Kernel {
    fn mutex(&self, n: u32) -> Result<usize, u32> {
        let m = number(n, OBJECTS)?;
        refuse(!self.mutexes[m].used, 2)?;
        Ok(m)
    }

    pub(super) fn mutex_create(&mut self, n: u32) -> Answer {
        let m = number(n, OBJECTS)?;
        refuse(self.mutexes[m].used, 3)?;
        self.mutexes[m] = Mutex { used: true, holder: None, nesting: 0, queue: vec![] };
        Ok(0)
    }

    /// "then the object goes; its holder is recomputed and its chain moved. A held mutex without waiters
    /// may be deleted unforced."
    pub(super) fn mutex_delete(&mut self, n: u32, force: u32) -> Answer {
        let m = self.mutex(n)?;
        let forced = yes_no(force)?;
        refuse(!forced && !self.mutexes[m].queue.is_empty(), 13)?;
        self.send_off_all(Place::Mutex(m));
        let holder = self.mutexes[m].holder;
        self.mutexes[m] = Mutex::default();
        self.move_chain(holder);
        Ok(0)
    }

    /// "a free mutex is taken (nesting 1), a holder's own mutex is nested once more; outcome 0, also when
    /// locked." "10: the 251st nesting of a mutex"
    pub(super) fn mutex_wait(&mut self, n: u32, block: u32, limit: u32) -> Answer {
        let caller = self.caller()?;
        let m = self.mutex(n)?;
        let blocking = yes_no(block)?;
        let mutex = &mut self.mutexes[m];
        if mutex.holder.is_none() || mutex.holder == Some(caller) {
            refuse(mutex.nesting == MOST, 10)?;
            mutex.holder = Some(caller);
            mutex.nesting += 1;
            self.tasks[caller].outcome = 0;
            return Ok(0);
        }
        refuse(!blocking, 8)?;
        refuse(self.depth > 0, 7)?;
        self.block(caller, State::Mutex(m), limit);
        Ok(14)
    }

    /// "*Mutex post*: nesting less 1; at 0 the releaser moves first, then the first waiter becomes holder
    /// with nesting 1 and becomes plain, outcome 0, or the mutex is free."
    pub(super) fn mutex_post(&mut self, n: u32) -> Answer {
        let caller = self.caller()?;
        let m = self.mutex(n)?;
        refuse(self.mutexes[m].holder != Some(caller), 9)?;
        self.mutexes[m].nesting -= 1;
        if self.mutexes[m].nesting == 0 {
            self.mutexes[m].holder = None;
            self.move_chain(Some(caller));
            if let Some(first) = self.mutexes[m].queue.first().copied() {
                self.end_wait(first, 0); // nobody holds it at this moment, so no chain moves
                self.mutexes[m].holder = Some(first);
                self.mutexes[m].nesting = 1;
            }
        }
        Ok(0)
    }

    pub(super) fn mutex_abort(&mut self, n: u32) -> Answer {
        let m = self.mutex(n)?;
        self.abort(Place::Mutex(m))
    }
}
