//! The standing rules.
use super::{Channel, Kernel, Place, State, Task, Wanted, LAST_PRIORITY, MOST, MOST_MESSAGES, TASKS};

/// The names of the standing rules, in the paper's order; the first is of the image alone.
pub const RULES: [&str; 22] = [
    "the image shows a table",
    "fields in range",
    "free: zero fields",
    "free: no queue",
    "able queue: each able task once, nothing else",
    "object queue: each waiter once, nothing else",
    "waited-for objects in use",
    "queues ordered",
    "working priorities afresh",
    "free mutex: nesting 0",
    "free mutex: no waiter",
    "held mutex: nesting above 0",
    "holder in use",
    "holder does not wait for what it holds",
    "semaphore with a waiter: count 0",
    "channel with a waiter: no message",
    "marks fit the states",
    "no mark equals the tick counter",
    "left at most the quantum",
    "in use: quantum above 0",
    "the running task",
    "a bit for each level with an able task",
];

impl Kernel {
    pub fn sound(&self) -> bool {
        self.broken().is_empty()
    }

    /// The standing rules that do not hold, as places in RULES.
    pub fn broken(&self) -> Vec<usize> {
        let homes: Vec<Option<Place>> = (0..TASKS).map(|t| self.home(t)).collect();
        let holds = [
            true,
            self.in_range(),
            self.free_are_zero(),
            self.free_have_no_queue(),
            self.queue_holds(Place::Able, &homes),
            Kernel::places().skip(1).all(|place| self.queue_holds(place, &homes)),
            self.waited_for_in_use(),
            Kernel::places().all(|place| self.ordered(place)),
            self.working_afresh(),
            self.mutexes.iter().all(|m| m.holder.is_some() || m.nesting == 0),
            self.mutexes.iter().all(|m| m.holder.is_some() || m.queue.is_empty()),
            self.mutexes.iter().all(|m| m.holder.is_none() || m.nesting > 0),
            self.mutexes.iter().all(|m| m.holder.map_or(true, |t| self.tasks[t].used)),
            self.no_own_wait(),
            self.semaphores.iter().all(|s| s.queue.is_empty() || s.count == 0),
            self.channels.iter().all(|c| c.queue.is_empty() || c.messages.is_empty()),
            self.marks_fit(),
            self.tasks.iter().all(|task| task.mark != Some(self.tick)),
            self.tasks.iter().all(|task| task.left <= task.quantum),
            self.all_have_a_quantum(),
            self.runs_rightly(),
            // "a level's bit is set exactly if that level has an able task [..]. This is a new standing rule."
            self.ready == self.ready_levels(),
        ];
        (0..RULES.len()).filter(|&rule| !holds[rule]).collect()
    }

    /// "All fields are in range"; "a default quantum, 1 to 65,535"
    fn in_range(&self) -> bool {
        let priority = |p: u8| u32::from(p) <= LAST_PRIORITY;
        let tasks = self
            .tasks
            .iter()
            .all(|t| priority(t.base) && priority(t.working) && t.suspends <= MOST && t.outcome <= 3);
        let no_mask = |t: &Task| matches!(t.state, State::Flags(_, Wanted { mask: 0, .. }));
        let numbers = self.default_quantum > 0 && self.depth <= MOST;
        let objects = self.mutexes.iter().all(|m| m.nesting <= MOST) && self.channels.iter().all(channel_in_range);
        tasks && !self.tasks.iter().any(no_mask) && objects && numbers
    }

    /// "a free number has zero fields"
    fn free_are_zero(&self) -> bool {
        self.tasks.iter().all(|t| t.used || *t == Task::default())
            && self.semaphores.iter().all(|s| s.used || s.count == 0)
            && self.mutexes.iter().all(|m| m.used || (m.holder.is_none() && m.nesting == 0))
            && self.groups.iter().all(|g| g.used || g.flags == 0)
            && self.channels.iter().all(|c| c.used || (c.capacity == 0 && c.messages.is_empty()))
    }

    /// "a free number has [..] no queue and no place in a queue"
    fn free_have_no_queue(&self) -> bool {
        Kernel::places().all(|place| self.queue(place).iter().all(|&t| self.tasks[t].used))
            && self.semaphores.iter().all(|s| s.used || s.queue.is_empty())
            && self.mutexes.iter().all(|m| m.used || m.queue.is_empty())
            && self.groups.iter().all(|g| g.used || g.queue.is_empty())
            && self.channels.iter().all(|c| c.used || c.queue.is_empty())
    }

    /// "The able queue holds each able task once and nothing else; each object's queue holds each of its
    /// waiters once and nothing else."
    fn queue_holds(&self, place: Place, homes: &[Option<Place>]) -> bool {
        let mut found = self.queue(place).clone();
        found.sort();
        found.into_iter().eq((0..TASKS).filter(|&t| homes[t] == Some(place)))
    }

    /// "Waited-for objects are in use."
    fn waited_for_in_use(&self) -> bool {
        self.tasks.iter().all(|task| match task.state {
            State::Semaphore(s) => self.semaphores[s].used,
            State::Mutex(m) => self.mutexes[m].used,
            State::Flags(g, _) => self.groups[g].used,
            State::Channel(c) => self.channels[c].used,
            _ => true,
        })
    }

    /// "Queues are ordered."
    fn ordered(&self, place: Place) -> bool {
        self.queue(place).windows(2).all(|two| self.tasks[two[0]].working <= self.tasks[two[1]].working)
    }

    /// "Working priorities equal those worked out afresh"
    fn working_afresh(&self) -> bool {
        let afresh = self.all_afresh();
        (0..TASKS).all(|t| !self.tasks[t].used || self.tasks[t].working == afresh[t])
    }

    /// "a holder [..] does not wait for the mutex it holds"
    fn no_own_wait(&self) -> bool {
        (0..TASKS).all(|t| self.waits_for_holder(t) != Some(t))
    }

    /// "A plain task has no due mark, a delayed one has one, a waiter may"
    fn marks_fit(&self) -> bool {
        self.tasks.iter().all(|task| match task.state {
            State::Plain => task.mark.is_none(),
            State::Delayed => task.mark.is_some(),
            _ => true,
        })
    }

    /// "A sound table then has no task in use with quantum 0."
    fn all_have_a_quantum(&self) -> bool {
        self.tasks.iter().all(|task| !task.used || task.quantum > 0)
    }

    /// "At lock depth 0 the running task is the first of the able queue, or none if that is empty; at
    /// greater depth it is an able task or none."
    fn runs_rightly(&self) -> bool {
        if self.depth == 0 {
            self.running == self.able.first().copied()
        } else {
            self.running.map_or(true, |t| self.is_able(t))
        }
    }
}

/// "up to 32 messages [..], the capacity 1 to 32 fixed at creation": no more messages than that.
fn channel_in_range(channel: &Channel) -> bool {
    let (capacity, least) = (usize::from(channel.capacity), usize::from(channel.used));
    (least..=MOST_MESSAGES).contains(&capacity) && channel.messages.len() <= capacity
}
