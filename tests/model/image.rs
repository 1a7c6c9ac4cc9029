//! The image: which byte says what, from docs/IMAGE.md. No other file of the model names a byte.
#![allow(dead_code)]

use crate::kernel::{Channel, Kernel, State, Task, Test, Wanted, GROUPS, MOST_MESSAGES, OBJECTS, TASKS};

pub const IMAGE: usize = 4936;

const QUEUES: usize = 1 + 3 * OBJECTS + GROUPS;
const SLOTS: usize = TASKS;

/// One field of all tasks or objects, or all slots, or a single number. "Numbers of two, four and eight bytes
/// have their lowest byte first."
#[derive(Clone, Copy)]
pub struct Column {
    pub of: &'static str,
    pub name: &'static str,
    from: usize,
    width: usize,
    pub count: usize,
}

macro_rules! columns {
    ($($column:ident: $of:literal, $name:literal, $from:literal, $width:literal, $count:expr;)*) => {
        $(const $column: Column = Column { of: $of, name: $name, from: $from, width: $width, count: $count };)*
        pub const COLUMNS: &[Column] = &[$($column),*];
    };
}

columns! {
    USED: "task", "in use", 0, 1, TASKS;
    BASE: "task", "base priority", 32, 1, TASKS;
    WORK: "task", "working priority", 64, 1, TASKS;
    SUSPENDS: "task", "suspend count", 96, 1, TASKS;
    STATE: "task", "state", 128, 1, TASKS;
    OBJECT: "task", "object waited for", 160, 1, TASKS;
    MARKED: "task", "has a due mark", 192, 1, TASKS;
    OUTCOME: "task", "outcome", 224, 1, TASKS;
    TEST: "task", "test of its flags", 256, 1, TASKS;
    CONSUME: "task", "consumes its flags", 288, 1, TASKS;
    QUANTUM: "task", "quantum", 320, 2, TASKS;
    LEFT: "task", "left of the quantum", 384, 2, TASKS;
    DUE: "task", "due mark", 448, 4, TASKS;
    MASK: "task", "mask of its flags", 576, 4, TASKS;
    MESSAGE: "task", "message", 704, 4, TASKS;
    SEMAPHORE_USED: "semaphore", "in use", 832, 1, OBJECTS;
    COUNT: "semaphore", "count", 848, 4, OBJECTS;
    MUTEX_USED: "mutex", "in use", 912, 1, OBJECTS;
    HOLDER: "mutex", "holder plus 1", 928, 1, OBJECTS;
    NESTING: "mutex", "nesting", 944, 1, OBJECTS;
    GROUP_USED: "group", "in use", 960, 1, GROUPS;
    FLAGS: "group", "flags", 968, 4, GROUPS;
    CHANNEL_USED: "channel", "in use", 1000, 1, OBJECTS;
    CAPACITY: "channel", "capacity", 1016, 1, OBJECTS;
    HELD: "channel", "messages held", 1032, 1, OBJECTS;
    SLOT: "queue", "slot", 1048, 1, QUEUES * SLOTS;
    TICK: "", "tick counter", 2872, 4, 1;
    DEFAULT_QUANTUM: "", "default quantum", 2876, 2, 1;
    DEPTH: "", "lock depth", 2878, 1, 1;
    RUNNING: "", "running task plus 1", 2879, 1, 1;
    READY: "", "ready word", 2880, 8, 1;
    HELD_MESSAGE: "messages", "slot", 2888, 4, OBJECTS * MOST_MESSAGES;
}

/// "There is no padding": each column begins where the one before it ends.
const _: () = {
    let (mut at, mut i) = (0, 0);
    while i < COLUMNS.len() {
        assert!(COLUMNS[i].from == at);
        at += COLUMNS[i].width * COLUMNS[i].count;
        i += 1;
    }
    assert!(at == IMAGE);
};

impl Column {
    fn at(&self, i: usize) -> usize {
        assert!(i < self.count);
        self.from + self.width * i
    }

    pub fn get(&self, image: &[u8], i: usize) -> u64 {
        image[self.at(i)..][..self.width].iter().rev().fold(0, |n, &byte| n << 8 | u64::from(byte))
    }

    /// What of the number is beyond the column's width is dropped.
    pub fn put(&self, image: &mut [u8], i: usize, n: u64) {
        image[self.at(i)..][..self.width].copy_from_slice(&n.to_le_bytes()[..self.width]);
    }

    pub fn differs(&self, one: &[u8], other: &[u8]) -> bool {
        (0..self.count).any(|i| self.get(one, i) != self.get(other, i))
    }

    fn byte(&self, image: &[u8], i: usize) -> u8 {
        self.get(image, i) as u8
    }

    fn number(&self, image: &[u8], i: usize) -> u32 {
        self.get(image, i) as u32
    }

    fn flag(&self, image: &[u8], i: usize) -> Option<bool> {
        match self.get(image, i) {
            0 => Some(false),
            1 => Some(true),
            _ => None,
        }
    }

    fn task_or_none(&self, image: &[u8], i: usize) -> Option<Option<usize>> {
        match self.get(image, i) as usize {
            0 => Some(None),
            n if n <= TASKS => Some(Some(n - 1)),
            _ => None,
        }
    }
}

/// "a task's number is written plus 1, and none is 0"
fn plus_one(t: Option<usize>) -> u64 {
    t.map_or(0, |t| t as u64 + 1)
}

impl Kernel {
    pub fn encode(&self) -> Vec<u8> {
        let mut image = vec![0; IMAGE];
        let at = &mut image;
        for (t, task) in self.tasks.iter().enumerate() {
            encode_task(task, t, at);
        }
        for (s, semaphore) in self.semaphores.iter().enumerate() {
            SEMAPHORE_USED.put(at, s, semaphore.used.into());
            COUNT.put(at, s, semaphore.count.into());
        }
        for (m, mutex) in self.mutexes.iter().enumerate() {
            MUTEX_USED.put(at, m, mutex.used.into());
            HOLDER.put(at, m, plus_one(mutex.holder));
            NESTING.put(at, m, mutex.nesting.into());
        }
        for (g, group) in self.groups.iter().enumerate() {
            GROUP_USED.put(at, g, group.used.into());
            FLAGS.put(at, g, group.flags.into());
        }
        for (c, channel) in self.channels.iter().enumerate() {
            encode_channel(channel, c, at);
        }
        for (q, place) in Kernel::places().enumerate() {
            for (slot, &t) in self.queue(place).iter().enumerate() {
                SLOT.put(at, q * SLOTS + slot, plus_one(Some(t)));
            }
        }
        TICK.put(at, 0, self.tick.into());
        DEFAULT_QUANTUM.put(at, 0, self.default_quantum.into());
        DEPTH.put(at, 0, self.depth.into());
        RUNNING.put(at, 0, plus_one(self.running));
        READY.put(at, 0, self.ready);
        image
    }

    /// The table that an image shows, sound or not; none where a byte has no meaning.
    pub fn decode(image: &[u8]) -> Option<Kernel> {
        if image.len() != IMAGE {
            return None;
        }
        let mut kernel = Kernel::fresh();
        for t in 0..TASKS {
            kernel.tasks[t] = decode_task(image, t)?;
        }
        for (s, semaphore) in kernel.semaphores.iter_mut().enumerate() {
            semaphore.used = SEMAPHORE_USED.flag(image, s)?;
            semaphore.count = COUNT.number(image, s);
        }
        for (m, mutex) in kernel.mutexes.iter_mut().enumerate() {
            mutex.used = MUTEX_USED.flag(image, m)?;
            mutex.holder = HOLDER.task_or_none(image, m)?;
            mutex.nesting = NESTING.byte(image, m);
        }
        for (g, group) in kernel.groups.iter_mut().enumerate() {
            group.used = GROUP_USED.flag(image, g)?;
            group.flags = FLAGS.number(image, g);
        }
        for (c, channel) in kernel.channels.iter_mut().enumerate() {
            channel.used = CHANNEL_USED.flag(image, c)?;
            channel.capacity = CAPACITY.byte(image, c);
            channel.messages = decode_messages(image, c)?;
        }
        for (q, place) in Kernel::places().enumerate() {
            *kernel.queue_mut(place) = decode_queue(image, q)?;
        }
        kernel.tick = TICK.number(image, 0);
        kernel.default_quantum = DEFAULT_QUANTUM.get(image, 0) as u16;
        kernel.depth = DEPTH.byte(image, 0);
        kernel.running = RUNNING.task_or_none(image, 0)?;
        kernel.ready = READY.get(image, 0);
        Some(kernel)
    }

    /// A sound table, or the rules that the image breaks.
    pub fn judge(image: &[u8]) -> Result<Kernel, Vec<usize>> {
        let kernel = Kernel::decode(image).ok_or(vec![0usize])?;
        match kernel.broken() {
            broken if broken.is_empty() => Ok(kernel),
            broken => Err(broken),
        }
    }
}

fn encode_task(task: &Task, t: usize, image: &mut [u8]) {
    let (state, object) = match task.state {
        State::Plain => (0, 0),
        State::Delayed => (1, 0),
        State::Semaphore(s) => (2, s),
        State::Mutex(m) => (3, m),
        State::Flags(g, _) => (4, g),
        State::Channel(c) => (5, c),
    };
    USED.put(image, t, task.used.into());
    BASE.put(image, t, task.base.into());
    WORK.put(image, t, task.working.into());
    SUSPENDS.put(image, t, task.suspends.into());
    STATE.put(image, t, state);
    OBJECT.put(image, t, object as u64);
    MARKED.put(image, t, task.mark.is_some().into());
    OUTCOME.put(image, t, task.outcome.into());
    QUANTUM.put(image, t, task.quantum.into());
    LEFT.put(image, t, task.left.into());
    DUE.put(image, t, task.mark.unwrap_or(0).into());
    MESSAGE.put(image, t, task.message.into());
    if let State::Flags(_, wanted) = task.state {
        TEST.put(image, t, wanted.test as u64);
        CONSUME.put(image, t, wanted.consume.into());
        MASK.put(image, t, wanted.mask.into());
    }
}

fn encode_channel(channel: &Channel, c: usize, image: &mut [u8]) {
    assert!(channel.messages.len() <= MOST_MESSAGES);
    CHANNEL_USED.put(image, c, channel.used.into());
    CAPACITY.put(image, c, channel.capacity.into());
    HELD.put(image, c, channel.messages.len() as u64);
    for (slot, &message) in channel.messages.iter().enumerate() {
        HELD_MESSAGE.put(image, c * MOST_MESSAGES + slot, message.into());
    }
}

/// What a task wants of the flags of a group: "0 in every state but 4".
fn decode_wanted(image: &[u8], t: usize) -> Option<Wanted> {
    let test = Test::from_number(TEST.number(image, t))?;
    Some(Wanted { mask: MASK.number(image, t), test, consume: CONSUME.flag(image, t)? })
}

fn wants_nothing(image: &[u8], t: usize) -> bool {
    [TEST, CONSUME, MASK].iter().all(|column| column.get(image, t) == 0)
}

fn decode_state(image: &[u8], t: usize) -> Option<State> {
    let object = OBJECT.get(image, t) as usize;
    match STATE.get(image, t) {
        4 if object < GROUPS => Some(State::Flags(object, decode_wanted(image, t)?)),
        _ if !wants_nothing(image, t) => None,
        0 if object == 0 => Some(State::Plain),
        1 if object == 0 => Some(State::Delayed),
        2 if object < OBJECTS => Some(State::Semaphore(object)),
        3 if object < OBJECTS => Some(State::Mutex(object)),
        5 if object < OBJECTS => Some(State::Channel(object)),
        _ => None,
    }
}

fn decode_task(image: &[u8], t: usize) -> Option<Task> {
    let mark = match (MARKED.flag(image, t)?, DUE.number(image, t)) {
        (true, mark) => Some(mark),
        (false, 0) => None,
        (false, _) => return None,
    };
    Some(Task {
        used: USED.flag(image, t)?,
        base: BASE.byte(image, t),
        working: WORK.byte(image, t),
        suspends: SUSPENDS.byte(image, t),
        quantum: QUANTUM.get(image, t) as u16,
        left: LEFT.get(image, t) as u16,
        state: decode_state(image, t)?,
        mark,
        outcome: OUTCOME.byte(image, t),
        message: MESSAGE.number(image, t),
    })
}

/// The messages of a channel, the next one first: as many as it holds, and the slots behind them are 0.
fn decode_messages(image: &[u8], c: usize) -> Option<Vec<u32>> {
    let slots: Vec<u32> = (0..MOST_MESSAGES).map(|slot| HELD_MESSAGE.number(image, c * MOST_MESSAGES + slot)).collect();
    let held = HELD.get(image, c) as usize;
    let unused = slots.get(held..)?;
    if unused.iter().any(|&message| message != 0) { None } else { Some(slots[..held].to_vec()) }
}

/// "A queue is packed to the front [..] the slots behind the last entry are 0."
fn decode_queue(image: &[u8], q: usize) -> Option<Vec<usize>> {
    let mut slots = vec![];
    for slot in q * SLOTS..(q + 1) * SLOTS {
        slots.push(SLOT.task_or_none(image, slot)?);
    }
    let filled = slots.iter().take_while(|slot| slot.is_some()).count();
    if slots[filled..].iter().any(|slot| slot.is_some()) {
        return None;
    }
    Some(slots[..filled].iter().flatten().copied().collect())
}

/// What a byte of the image means, for reports.
pub fn meaning(offset: usize) -> String {
    let holds = |column: &&Column| (column.from..column.from + column.width * column.count).contains(&offset);
    match COLUMNS.iter().find(holds) {
        None => "beyond the image".to_string(),
        Some(column) => {
            let (i, byte) = ((offset - column.from) / column.width, (offset - column.from) % column.width);
            let part = if column.width > 1 { format!(", byte {byte}") } else { String::new() };
            field(column, i) + &part
        }
    }
}

fn field(column: &Column, i: usize) -> String {
    let name = column.name;
    match (column.of, i / SLOTS, i % SLOTS) {
        ("", ..) => name.to_string(),
        ("queue", 0, slot) => format!("able queue, {name} {slot}"),
        ("queue", q, slot) if q <= OBJECTS => format!("queue of semaphore {}, {name} {slot}", q - 1),
        ("queue", q, slot) if q <= 2 * OBJECTS => format!("queue of mutex {}, {name} {slot}", q - 1 - OBJECTS),
        ("queue", q, slot) if q <= 2 * OBJECTS + GROUPS => format!("queue of group {}, {name} {slot}", q - 1 - 2 * OBJECTS),
        ("queue", q, slot) => format!("queue of channel {}, {name} {slot}", q - 1 - 2 * OBJECTS - GROUPS),
        ("messages", ..) => format!("messages of channel {}, {name} {}", i / MOST_MESSAGES, i % MOST_MESSAGES),
        (of, ..) => format!("{of} {i}: {name}"),
    }
}
