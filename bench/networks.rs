//! The interpreter's process networks: Ramp, Scale, AddSubtract, UpSample, DownSample, Discard, and composites of SDF whose actors take and give one token, right in the top, of integers.
//!
//! A process takes its tokens one by one, place by place, fires, and puts what it gave one by one. It goes on until it waits for a token or for room; whoever waits at the other end of a channel is woken then. Where all wait, the full channel of least capacity grows that a process waits to put on.

use crate::{director_of, entities_of, push_number, push_trace, Actor, Json, Node};
use std::collections::VecDeque;

struct Channel {
    tokens: VecDeque<i64>,
    capacity: usize,
    writer: usize,
    reader: usize,
}

/// What stands in a composite: its actors fire in an order that is found once.
struct Inner {
    nodes: Vec<Node>,
    channels: Vec<VecDeque<i64>>,
    order: Vec<usize>,
    /// The channel of the composite's input, and that of its output.
    input: usize,
    output: usize,
}

impl Inner {
    /// One iteration on a token.
    fn fire(&mut self, token: i64) -> Option<i64> {
        self.channels[self.input].push_back(token);
        for &number in &self.order {
            if !self.nodes[number].fire(&mut self.channels) {
                return None;
            }
        }
        self.channels[self.output].pop_front()
    }

    fn of(entity: &Json) -> Inner {
        let (nodes, order, channels, [input, output]) = entities_of(entity);
        assert!(nodes.iter().all(|node| node.actor.takes() == 1 && node.actor.gives() == 1), "one token each");
        Inner { nodes, channels: vec![VecDeque::new(); channels], order, input, output }
    }
}

pub struct Process {
    pub node: Node,
    inner: Option<Inner>,
    /// After so many firings it is over.
    limit: u64,
    takes: usize,
    /// What it has gathered, place by place, of all that it needs.
    pub gathered: Vec<i64>,
    needed: usize,
    /// What it has still to put: this token of those that it gave, on this output, and what is behind it.
    given: Vec<i64>,
    token: usize,
    output: usize,
}

impl Process {
    pub fn new(entity: &Json, node: Node) -> Process {
        let limit = match entity.parameter("firingCountLimit", 0) {
            0 => u64::MAX,
            limit => limit as u64,
        };
        let takes = node.actor.takes();
        Process {
            inner: matches!(node.actor, Actor::Composite).then(|| Inner::of(entity)),
            limit,
            takes,
            gathered: Vec::new(),
            needed: takes * (node.plus.len() + node.minus.len()),
            given: Vec::new(),
            token: 0,
            output: 0,
            node,
        }
    }

    fn place(&self, number: usize) -> usize {
        let plus = self.node.plus.len();
        if number < plus { self.node.plus[number] } else { self.node.minus[number - plus] }
    }

    /// The channel of its next get, if it needs one before it can fire.
    pub fn next_get(&self) -> Option<usize> {
        let have = self.gathered.len();
        (have < self.needed).then(|| self.place(if self.takes == 1 { have } else { have / self.takes }))
    }

    /// The channel and the token of its next put, if it has one to make.
    pub fn next_put(&self) -> Option<(usize, i64)> {
        let token = *self.given.get(self.token)?;
        Some((*self.node.outputs.get(self.output)?, token))
    }

    pub fn is_over(&self) -> bool {
        self.node.firings >= self.limit
    }

    /// The channel that it waits to get from, where it has made its puts.
    pub fn waits_for(&self) -> Option<usize> {
        if self.next_put().is_some() || self.is_over() {
            return None;
        }
        self.next_get()
    }

    pub fn put_made(&mut self) {
        self.output += 1;
        if self.output == self.node.outputs.len() {
            self.output = 0;
            self.token += 1;
        }
    }

    /// Fires on what it gathered, or answers `false` where a number leaves 64 bits.
    pub fn fire(&mut self) -> bool {
        self.given.clear();
        (self.token, self.output) = (0, 0);
        let one = match self.node.actor {
            Actor::Ramp { init, step } => i64::try_from(i128::from(init) + i128::from(self.node.firings) * i128::from(step)).ok(),
            Actor::Scale { factor } => self.gathered[0].checked_mul(factor),
            Actor::AddSubtract => {
                let (plus, minus) = self.gathered.split_at(self.node.plus.len());
                let sum = |tokens: &[i64]| tokens.iter().map(|&token| i128::from(token)).sum::<i128>();
                i64::try_from(sum(plus) - sum(minus)).ok()
            }
            Actor::DownSample { factor, phase } => Some(self.gathered[factor - 1 - phase]),
            Actor::UpSample { factor, phase } => {
                self.given.resize(factor, 0);
                self.given[phase] = self.gathered[0];
                None
            }
            Actor::Repeat { times } => {
                self.given.resize(times, self.gathered[0]);
                None
            }
            Actor::Composite => self.inner.as_mut().expect("actors").fire(self.gathered[0]),
            Actor::Discard => None,
            Actor::Timed => unreachable!("an actor of DE"),
        };
        match one {
            Some(token) => self.given.push(token),
            None if matches!(self.node.actor, Actor::UpSample { .. } | Actor::Repeat { .. } | Actor::Discard) => {}
            None => return false,
        }
        self.gathered.clear();
        if let Some(recorded) = &mut self.node.recorded {
            recorded.extend_from_slice(&self.given);
        }
        self.node.firings += 1;
        true
    }
}

pub struct Network {
    processes: Vec<Process>,
    channels: Vec<Channel>,
    greatest: usize,
    ready: Vec<usize>,
    is_ready: Vec<bool>,
}

impl Network {
    pub fn new(top: &Json, nodes: Vec<Node>, ends: &[(usize, usize)]) -> Network {
        let director = director_of(top);
        let capacity = director.parameter("initialQueueCapacity", 1) as usize;
        let channel = |&(writer, reader): &(usize, usize)| Channel { tokens: VecDeque::new(), capacity, writer, reader };
        Network {
            channels: ends.iter().map(channel).collect(),
            greatest: director.parameter("maximumQueueCapacity", 65536) as usize,
            ready: (0..nodes.len()).rev().collect(),
            is_ready: vec![true; nodes.len()],
            processes: top.list("entities").iter().zip(nodes).map(|(entity, node)| Process::new(entity, node)).collect(),
        }
    }

    fn wake(&mut self, number: usize) {
        if !self.is_ready[number] {
            self.is_ready[number] = true;
            self.ready.push(number);
        }
    }

    /// Makes the puts of a process, up to one for which there is no room.
    fn put_all(&mut self, number: usize) -> bool {
        while let Some((channel, token)) = self.processes[number].next_put() {
            let end = &mut self.channels[channel];
            if end.tokens.len() >= end.capacity {
                return false;
            }
            end.tokens.push_back(token);
            let reader = end.reader;
            self.processes[number].put_made();
            self.wake(reader);
        }
        true
    }

    /// Makes the gets of a process, up to one for which there is no token.
    fn gather(&mut self, number: usize) -> bool {
        while let Some(channel) = self.processes[number].next_get() {
            let end = &mut self.channels[channel];
            let Some(token) = end.tokens.pop_front() else { return false };
            let (was_full, writer) = (end.tokens.len() + 1 == end.capacity, end.writer);
            self.processes[number].gathered.push(token);
            if was_full {
                self.wake(writer);
            }
        }
        true
    }

    /// Lets a process go on until it waits. Answers `false` where it is stuck.
    fn go_on(&mut self, number: usize) -> bool {
        loop {
            if !self.put_all(number) {
                return true;
            }
            if self.processes[number].is_over() || !self.gather(number) {
                return true;
            }
            if !self.processes[number].fire() {
                return false;
            }
        }
    }

    /// The full channel that grows where all wait, if one may.
    fn grow(&mut self) -> bool {
        let waited = self.processes.iter().filter_map(|process| process.next_put().map(|(channel, _)| channel));
        let may_grow = waited.filter(|&channel| self.channels[channel].capacity < self.greatest);
        let Some(channel) = may_grow.min_by_key(|&channel| (self.channels[channel].capacity, channel)) else { return false };
        let end = &mut self.channels[channel];
        end.capacity = (2 * end.capacity).min(self.greatest);
        let writer = end.writer;
        self.wake(writer);
        true
    }

    /// Runs to the deadlock, or to the first process that is stuck.
    pub fn run(&mut self) -> Option<usize> {
        loop {
            while let Some(number) = self.ready.pop() {
                self.is_ready[number] = false;
                if !self.go_on(number) {
                    return Some(number);
                }
            }
            if !self.grow() {
                assert!(self.processes.iter().all(|process| process.next_put().is_none()), "no jam");
                return None;
            }
        }
    }

    pub fn report(&self, record: &[usize], stuck: Option<usize>) -> Vec<u8> {
        let mut text = Vec::new();
        for &number in record {
            push_trace(&mut text, &self.processes[number].node, |_| 0);
        }
        match stuck.map(|number| &self.processes[number]) {
            None => text.extend_from_slice(b"end deadlock\n"),
            Some(process) => {
                let within = if process.inner.is_some() { ".k" } else { "" };
                text.extend_from_slice(format!("end fault 31 {}{within} ", process.node.name).as_bytes());
                push_number(&mut text, process.node.firings as i64);
                text.push(b'\n');
            }
        }
        text
    }
}
