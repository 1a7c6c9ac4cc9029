//! Tasks: create, delete, change priority, suspend, resume; the default quantum.
use super::calls::{number, refuse, Answer};
use super::{Kernel, State, Task, LAST_PRIORITY, MOST, MOST_QUANTUM, TASKS};

impl Kernel {
    /// "*Task create* (plain, suspend 0, left = quantum, outcome 0)." "a task created with 0 takes the default of
    /// that moment"
    pub(super) fn task_create(&mut self, n: u32, base: u32, quantum: u32) -> Answer {
        let t = number(n, TASKS)?;
        refuse(self.tasks[t].used, 3)?;
        refuse(base > LAST_PRIORITY, 4)?;
        refuse(quantum > MOST_QUANTUM, 4)?;
        let quantum = if quantum == 0 { self.default_quantum } else { quantum as u16 };
        self.tasks[t] = Task {
            used: true,
            base: base as u8,
            working: base as u8,
            suspends: 0,
            quantum,
            left: quantum,
            state: State::Plain,
            mark: None,
            outcome: 0,
            message: 0,
        };
        self.enter_if_able(t);
        Ok(0)
    }

    /// "a default quantum, 1 to 65,535 [..]; a new call sets it"; "setting the default to 0 gets 4", and so does what
    /// only the port can say, a number above 65,535
    pub(super) fn set_default_quantum(&mut self, n: u32) -> Answer {
        refuse(n == 0 || n > MOST_QUANTUM, 4)?;
        self.default_quantum = n as u16;
        Ok(0)
    }

    /// "*Task delete*: it leaves its queue, then the chain from the holder it waited for moves."
    /// "task delete 7 before 13"
    pub(super) fn task_delete(&mut self, n: u32) -> Answer {
        let t = self.task(n)?;
        refuse(self.runs_locked(t), 7)?;
        refuse(self.holds_any(t), 13)?;
        let holder = self.waits_for_holder(t);
        self.leave(t);
        self.tasks[t] = Task::default();
        self.move_chain(holder);
        Ok(0)
    }

    /// "*Change priority*: the base changes, the chain from that task moves"
    pub(super) fn change_priority(&mut self, n: u32, base: u32) -> Answer {
        let t = self.task(n)?;
        refuse(base > LAST_PRIORITY, 4)?;
        self.tasks[t].base = base as u8;
        self.move_chain(Some(t));
        Ok(0)
    }

    /// "*Suspend* adds 1". "A waiter that is suspended stays in its queue".
    pub(super) fn suspend(&mut self, n: u32) -> Answer {
        let t = self.task(n)?;
        refuse(self.runs_locked(t), 7)?;
        refuse(self.tasks[t].suspends == MOST, 10)?;
        if self.is_able(t) {
            self.leave(t);
        }
        self.tasks[t].suspends += 1;
        Ok(0)
    }

    /// "*resume* takes 1". "17 resume of a task not suspended"
    pub(super) fn resume(&mut self, n: u32) -> Answer {
        let t = self.task(n)?;
        refuse(self.tasks[t].suspends == 0, 17)?;
        self.tasks[t].suspends -= 1;
        self.enter_if_able(t);
        Ok(0)
    }
}
