//! Message queues, called channels, since a queue is a row of tasks.
use super::calls::{number, refuse, yes_no, Answer};
use super::{Channel, Kernel, Place, State, MOST_MESSAGES, OBJECTS};

impl Kernel {
    fn channel(&self, n: u32) -> Result<usize, u32> {
        let c = number(n, OBJECTS)?;
        refuse(!self.channels[c].used, 2)?;
        Ok(c)
    }

    /// "16 queues of up to 32 messages"; "capacity 0 or above 32 gets 4"
    pub(super) fn channel_create(&mut self, n: u32, capacity: u32) -> Answer {
        let c = number(n, OBJECTS)?;
        refuse(self.channels[c].used, 3)?;
        refuse(capacity == 0 || capacity > MOST_MESSAGES as u32, 4)?;
        self.channels[c] = Channel { used: true, capacity: capacity as u8, messages: vec![], queue: vec![] };
        Ok(0)
    }

    /// "Wait, limit, abort, delete [..] are as for semaphores": its messages go with it.
    pub(super) fn channel_delete(&mut self, n: u32, force: u32) -> Answer {
        let c = self.channel(n)?;
        let forced = yes_no(force)?;
        refuse(!forced && !self.channels[c].queue.is_empty(), 13)?;
        self.send_off_all(Place::Channel(c));
        self.channels[c] = Channel::default();
        Ok(0)
    }

    /// "one taken at once stands in the caller's" record
    pub(super) fn channel_wait(&mut self, n: u32, block: u32, limit: u32) -> Answer {
        let caller = self.caller()?;
        let c = self.channel(n)?;
        let blocking = yes_no(block)?;
        if !self.channels[c].messages.is_empty() {
            self.tasks[caller].message = self.channels[c].messages.remove(0);
            self.tasks[caller].outcome = 0;
            return Ok(0);
        }
        refuse(!blocking, 8)?;
        refuse(self.depth > 0, 7)?;
        self.block(caller, State::Channel(c), limit);
        Ok(14)
    }

    /// "A post goes to the end or to the front; with a waiter, the message goes to the first waiter directly and
    /// stands in its record". "16, after 4, for a post to a full queue"
    pub(super) fn channel_post(&mut self, n: u32, message: u32, front: u32) -> Answer {
        let c = self.channel(n)?;
        let in_front = yes_no(front)?;
        let channel = &mut self.channels[c];
        refuse(channel.messages.len() == usize::from(channel.capacity), 16)?;
        match channel.queue.first().copied() {
            Some(first) => {
                self.tasks[first].message = message;
                self.end_wait(first, 0);
            }
            None if in_front => channel.messages.insert(0, message),
            None => channel.messages.push(message),
        }
        Ok(0)
    }

    pub(super) fn channel_abort(&mut self, n: u32) -> Answer {
        let c = self.channel(n)?;
        self.abort(Place::Channel(c))
    }

    /// "Flush empties the queue and tells how many messages went in a further result"
    pub(super) fn channel_flush(&mut self, n: u32, further: &mut u32) -> Answer {
        let c = self.channel(n)?;
        *further = self.channels[c].messages.len() as u32;
        self.channels[c].messages.clear();
        Ok(0)
    }
}
