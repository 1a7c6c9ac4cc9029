//! Time: yield, delay, delay resume, lock, unlock, tick.
use super::calls::{refuse, Answer};
use super::{Kernel, State, MOST, TASKS};

impl Kernel {
    /// "*Yield*: the caller goes behind its equals, left = quantum." "20 yield without a peer; each in 12's place
    /// in the order": "yield 7 before 12"
    pub(super) fn yield_(&mut self) -> Answer {
        let caller = self.caller()?;
        refuse(self.depth > 0, 7)?;
        refuse(!self.has_peer(caller), 20)?;
        self.go_behind(caller);
        self.tasks[caller].left = self.tasks[caller].quantum;
        Ok(0)
    }

    /// "*Delay n*, 1 to 4,294,967,295: the due mark is the counter plus n". "a delay answers 0"
    pub(super) fn delay(&mut self, n: u32) -> Answer {
        let caller = self.caller()?;
        refuse(n == 0, 4)?;
        refuse(self.depth > 0, 7)?;
        self.leave(caller);
        self.tasks[caller].state = State::Delayed;
        self.tasks[caller].mark = Some(self.due(n));
        Ok(0)
    }

    /// "*Delay resume* ends a delay, outcome 0." "18 delay resume of a task not delayed"
    pub(super) fn delay_resume(&mut self, n: u32) -> Answer {
        let t = self.task(n)?;
        refuse(self.tasks[t].state != State::Delayed, 18)?;
        self.end_wait(t, 0);
        Ok(0)
    }

    pub(super) fn lock(&mut self) -> Answer {
        refuse(self.depth == MOST, 10)?;
        self.depth += 1;
        Ok(0)
    }

    /// "12 stays for unlock at depth 0"
    pub(super) fn unlock(&mut self) -> Answer {
        refuse(self.depth == 0, 12)?;
        self.depth -= 1;
        Ok(0)
    }

    /// "*Tick*: counter plus 1, wrapped." "A tick answers 0 unless 15."
    pub(super) fn tick_call(&mut self) -> Answer {
        self.tick = self.tick.wrapping_add(1);
        if let Some(t) = self.running {
            self.use_up(t);
        }
        // "Then each task whose mark equals the counter, in rising number [..] with outcome 1 for a wait
        // and 0 for a delay."
        for t in 0..TASKS {
            if self.tasks[t].mark == Some(self.tick) {
                let outcome = if self.tasks[t].state == State::Delayed { 0 } else { 1 };
                self.end_wait(t, outcome);
            }
        }
        Ok(0)
    }

    /// "if a task runs [..]: left falls by 1 but not below 0; if left is 0, depth is 0 and another able task has
    /// its working priority, it goes behind its equals and left = quantum." "the paper's "never rotated" is wrong"
    fn use_up(&mut self, t: usize) {
        self.tasks[t].left = self.tasks[t].left.saturating_sub(1);
        if self.tasks[t].left == 0 && self.depth == 0 && self.has_peer(t) {
            self.go_behind(t);
            self.tasks[t].left = self.tasks[t].quantum;
        }
    }
}
