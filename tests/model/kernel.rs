//! A model of the kernel's bookkeeping, written from the paper alone (its sentences are quoted), to be
//! compared with the port from outside. Queues are plain lists, working priorities follow their
//! definition, nothing is quick.
#![allow(dead_code)]

mod calls;
mod channels;
mod groups;
pub mod kinds;
mod mutexes;
pub mod rules;
mod semaphores;
mod tasks;
mod time;

pub const TASKS: usize = 32;
pub const OBJECTS: usize = 16; // semaphores, mutexes, channels
pub const GROUPS: usize = 8;

pub const LAST_PRIORITY: u32 = 62;
pub const LEVELS: u8 = 64; // bits of the ready word
pub const MOST: u8 = 250; // suspends, nestings, locks
pub const MOST_QUANTUM: u32 = 65535;
pub const MOST_MESSAGES: usize = 32; // in a channel

#[derive(Clone, Copy, PartialEq, Eq, Debug, Default)]
pub enum State {
    #[default]
    Plain,
    Delayed,
    Semaphore(usize),
    Mutex(usize),
    Flags(usize, Wanted),
    Channel(usize),
}

/// "A wait names a mask and one of four tests [..]; it may consume the flags that met the test."
#[derive(Clone, Copy, PartialEq, Eq, Debug)]
pub struct Wanted {
    pub mask: u32,
    pub test: Test,
    pub consume: bool,
}

#[derive(Clone, Copy, PartialEq, Eq, Debug)]
pub enum Test {
    AllSet,
    AnySet,
    AllClear,
    AnyClear,
}

#[derive(Clone, PartialEq, Eq, Debug, Default)]
pub struct Task {
    pub used: bool,
    pub base: u8,
    pub working: u8,
    pub suspends: u8,
    pub quantum: u16,
    pub left: u16,
    pub state: State,
    pub mark: Option<u32>,
    pub outcome: u8,
    pub message: u32,
}

#[derive(Clone, PartialEq, Eq, Debug, Default)]
pub struct Semaphore {
    pub used: bool,
    pub count: u32,
    pub queue: Vec<usize>,
}

#[derive(Clone, PartialEq, Eq, Debug, Default)]
pub struct Mutex {
    pub used: bool,
    pub holder: Option<usize>,
    pub nesting: u8,
    pub queue: Vec<usize>,
}

/// "groups of 32 flags": flag n is bit n.
#[derive(Clone, PartialEq, Eq, Debug, Default)]
pub struct Group {
    pub used: bool,
    pub flags: u32,
    pub queue: Vec<usize>,
}

/// A message queue, called a channel, since a queue is a row of tasks: "up to 32 messages, each a 32-bit number, the
/// capacity 1 to 32 fixed at creation". The message that is taken next stands first.
#[derive(Clone, PartialEq, Eq, Debug, Default)]
pub struct Channel {
    pub used: bool,
    pub capacity: u8,
    pub messages: Vec<u32>,
    pub queue: Vec<usize>,
}

#[derive(Clone, PartialEq, Eq, Debug)]
pub struct Kernel {
    pub tasks: Vec<Task>,
    pub semaphores: Vec<Semaphore>,
    pub mutexes: Vec<Mutex>,
    pub groups: Vec<Group>,
    pub channels: Vec<Channel>,
    pub able: Vec<usize>,
    pub tick: u32,
    pub default_quantum: u16,
    pub depth: u8,
    pub running: Option<usize>,
    /// "a 64-bit word in which a level's bit is set exactly if that level has an able task"
    pub ready: u64,
}

/// How many numbers the port gives with a kind: "the port may take more".
pub const NUMBERS: usize = 6;

/// A call as the port makes it.
#[derive(Clone, Copy, PartialEq, Eq, Debug)]
pub struct Call {
    pub kind: u8,
    pub numbers: [u32; NUMBERS],
}

/// What a call gives back.
#[derive(Clone, Copy, PartialEq, Eq, Debug)]
pub struct Outcome {
    pub answer: u32,
    pub runs: Option<usize>,
    /// How many messages a flush took; "0 otherwise".
    pub further: u32,
}

/// One of the queues.
#[derive(Clone, Copy, PartialEq, Eq, Debug)]
pub enum Place {
    Able,
    Semaphore(usize),
    Mutex(usize),
    Group(usize),
    Channel(usize),
}

/// Bit 63 for level 0, the most urgent, and so on.
pub fn level_bit(level: u8) -> u64 {
    1 << (LEVELS - 1 - level)
}

// ---------------------------------------------------------------------------------------------------
// Reading the table

impl Kernel {
    /// "The fresh table: nothing in use, all numbers 0, none running." "The table gets a default quantum, [..]
    /// 100 when fresh"
    pub fn fresh() -> Kernel {
        Kernel {
            tasks: vec![Task::default(); TASKS],
            semaphores: vec![Semaphore::default(); OBJECTS],
            mutexes: vec![Mutex::default(); OBJECTS],
            groups: vec![Group::default(); GROUPS],
            channels: vec![Channel::default(); OBJECTS],
            able: vec![],
            tick: 0,
            default_quantum: 100,
            depth: 0,
            running: None,
            ready: 0,
        }
    }

    /// "A task is *able* if it is in use, plain and its suspend count is 0."
    pub fn is_able(&self, t: usize) -> bool {
        let task = &self.tasks[t];
        task.used && task.state == State::Plain && task.suspends == 0
    }

    /// The ready word, worked out from the tasks alone. Since the first level is found by counting leading zeros, the
    /// most urgent one has the top bit.
    pub fn ready_levels(&self) -> u64 {
        let has_able = |level: u8| (0..TASKS).any(|t| self.is_able(t) && self.tasks[t].working == level);
        (0..LEVELS).filter(|&level| has_able(level)).map(level_bit).sum()
    }

    /// The holder of the mutex that a task waits for.
    pub fn waits_for_holder(&self, t: usize) -> Option<usize> {
        match self.tasks[t].state {
            State::Mutex(m) => self.mutexes[m].holder,
            _ => None,
        }
    }

    /// The chain of holders from a task, itself first, each task once.
    pub fn chain(&self, from: usize) -> Vec<usize> {
        let mut chain = vec![from];
        while let Some(holder) = self.waits_for_holder(*chain.last().unwrap()) {
            if chain.contains(&holder) {
                break;
            }
            chain.push(holder);
        }
        chain
    }

    /// Does the chain from one task lead to the other? Each task leads to itself.
    pub fn leads(&self, from: usize, to: usize) -> bool {
        let mut at = from;
        for _ in 0..=TASKS {
            if at == to {
                return true;
            }
            match self.waits_for_holder(at) {
                Some(holder) => at = holder,
                None => return false,
            }
        }
        false
    }

    /// The working priority by its definition: the least base among all tasks from which a chain of
    /// mutex waits leads to this one.
    pub fn afresh(&self, t: usize) -> u8 {
        (0..TASKS)
            .filter(|&from| self.leads(from, t))
            .map(|from| self.tasks[from].base)
            .min()
            .unwrap()
    }

    /// The same for all tasks together: each task's base reaches every task of its chain.
    pub fn all_afresh(&self) -> Vec<u8> {
        let mut least: Vec<u8> = self.tasks.iter().map(|task| task.base).collect();
        for from in (0..TASKS).filter(|&t| self.waits_for_holder(t).is_some()) {
            for t in self.chain(from) {
                least[t] = least[t].min(self.tasks[from].base);
            }
        }
        least
    }

    pub fn holds_any(&self, t: usize) -> bool {
        self.mutexes.iter().any(|mutex| mutex.holder == Some(t))
    }

    /// "another able task of the same working priority"
    pub fn has_peer(&self, t: usize) -> bool {
        let level = self.tasks[t].working;
        self.able.iter().any(|&other| other != t && self.tasks[other].working == level)
    }

    /// "the due mark is the counter plus n, wrapped at 2^32"
    fn due(&self, n: u32) -> u32 {
        self.tick.wrapping_add(n)
    }
}

// ---------------------------------------------------------------------------------------------------
// Queues: "Each is ordered by working priority, and among equals by arrival."

impl Kernel {
    pub fn queue(&self, place: Place) -> &Vec<usize> {
        match place {
            Place::Able => &self.able,
            Place::Semaphore(s) => &self.semaphores[s].queue,
            Place::Mutex(m) => &self.mutexes[m].queue,
            Place::Group(g) => &self.groups[g].queue,
            Place::Channel(c) => &self.channels[c].queue,
        }
    }

    pub fn queue_mut(&mut self, place: Place) -> &mut Vec<usize> {
        match place {
            Place::Able => &mut self.able,
            Place::Semaphore(s) => &mut self.semaphores[s].queue,
            Place::Mutex(m) => &mut self.mutexes[m].queue,
            Place::Group(g) => &mut self.groups[g].queue,
            Place::Channel(c) => &mut self.channels[c].queue,
        }
    }

    pub fn places() -> impl Iterator<Item = Place> {
        let semaphores = (0..OBJECTS).map(Place::Semaphore);
        let mutexes = (0..OBJECTS).map(Place::Mutex);
        let groups = (0..GROUPS).map(Place::Group);
        let channels = (0..OBJECTS).map(Place::Channel);
        std::iter::once(Place::Able).chain(semaphores).chain(mutexes).chain(groups).chain(channels)
    }

    /// The queue in which a task belongs: "the able tasks, and the waiters of each object".
    pub fn home(&self, t: usize) -> Option<Place> {
        match self.tasks[t].state {
            State::Semaphore(s) => Some(Place::Semaphore(s)),
            State::Mutex(m) => Some(Place::Mutex(m)),
            State::Flags(g, _) => Some(Place::Group(g)),
            State::Channel(c) => Some(Place::Channel(c)),
            _ if self.is_able(t) => Some(Place::Able),
            _ => None,
        }
    }

    /// The queue in which a task stands.
    fn stands_in(&self, t: usize) -> Option<Place> {
        Kernel::places().find(|&place| self.queue(place).contains(&t))
    }

    /// "goes behind its equals"
    fn enter(&mut self, t: usize, place: Place) {
        let level = self.tasks[t].working;
        let behind = self.queue(place).iter().take_while(|&&other| self.tasks[other].working <= level).count();
        self.queue_mut(place).insert(behind, t);
    }

    /// "go before its equals"
    fn enter_before(&mut self, t: usize, place: Place) {
        let level = self.tasks[t].working;
        let before = self.queue(place).iter().take_while(|&&other| self.tasks[other].working < level).count();
        self.queue_mut(place).insert(before, t);
    }

    /// "it leaves its queue", if it stands in one.
    fn leave(&mut self, t: usize) {
        if let Some(place) = self.stands_in(t) {
            self.queue_mut(place).retain(|&other| other != t);
        }
    }

    /// "it goes behind its equals" in the queue where it stands.
    fn go_behind(&mut self, t: usize) {
        if let Some(place) = self.stands_in(t) {
            self.leave(t);
            self.enter(t, place);
        }
    }

    /// "A task that becomes able goes behind its equals."
    fn enter_if_able(&mut self, t: usize) {
        if self.is_able(t) {
            self.enter(t, Place::Able);
        }
    }
}

// ---------------------------------------------------------------------------------------------------
// Move

impl Kernel {
    /// "A task whose working priority becomes more urgent is to go before its equals at the new level, in the able
    /// queue and in every wait queue; a lowered one goes behind as today." "an unchanged working priority moves nothing"
    fn refresh(&mut self, t: usize) {
        let (old, level) = (self.tasks[t].working, self.afresh(t));
        if level != old {
            let place = self.stands_in(t);
            self.leave(t);
            self.tasks[t].working = level;
            match place {
                Some(place) if level < old => self.enter_before(t, place),
                Some(place) => self.enter(t, place),
                None => {}
            }
        }
    }

    /// "Changes run along the chain: the task where it began, then the holder of the mutex it waits for,
    /// and so on, each task once."
    fn move_chain(&mut self, from: Option<usize>) {
        if let Some(from) = from {
            for t in self.chain(from) {
                self.refresh(t);
            }
        }
    }

    /// "it leaves its queue, the chain from the holder moves, it becomes plain, with outcome [..]".
    /// "A wait or delay that ends clears its mark."
    fn end_wait(&mut self, t: usize, outcome: u8) {
        let holder = self.waits_for_holder(t);
        self.leave(t);
        self.tasks[t].state = State::Plain;
        self.tasks[t].mark = None;
        self.tasks[t].outcome = outcome;
        self.move_chain(holder);
        self.enter_if_able(t);
    }

    /// "Otherwise the caller leaves the able queue, goes behind its equals in the object's queue, and for
    /// a mutex the chain from the holder moves."
    fn block(&mut self, caller: usize, state: State, limit: u32) {
        self.leave(caller);
        self.tasks[caller].state = state;
        // "a time limit; 0 means for ever, else a due mark as for a delay"
        self.tasks[caller].mark = if limit == 0 { None } else { Some(self.due(limit)) };
        if let Some(place) = self.home(caller) {
            self.enter(caller, place);
        }
        self.move_chain(self.waits_for_holder(caller));
    }
}
