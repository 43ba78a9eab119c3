//! The interpreter's models of DE: DiscreteClock with one event of value 1 a period, Server, Sampler, AddSubtract and the machines of `machines.rs`, right in the top, of integers.
//!
//! A heap holds the wakes, and within a reaction a second one the actors that are active, by depth. A server gives before it takes.

use crate::machines::Machine;
use crate::{push_number, Json, Node};
use std::cmp::Reverse;
use std::collections::{BinaryHeap, VecDeque};

/// A time in ticks and a microstep.
type Tag = (u64, u64);

enum Timed {
    Clock { period: u64, offset: u64, round: u64 },
    Server { time: u64, pending: VecDeque<(Tag, i64)> },
    Sampler { kept: Option<i64> },
    AddSubtract,
    Machine(Machine),
}

fn after(tag: Tag, ticks: u64) -> Tag {
    if ticks == 0 {
        (tag.0, tag.1 + 1)
    } else {
        (tag.0 + ticks, 0)
    }
}

/// The one offset of a clock.
fn offset_of(entity: &Json) -> u64 {
    let mut properties = entity.list("properties").iter();
    let offsets = properties.find(|property| property.text("name") == "offsets");
    offsets.map_or(0, |it| it.text("value").trim_matches(['{', '}']).parse().expect("one offset"))
}

impl Timed {
    fn of(entity: &Json) -> Timed {
        match entity.text("class") {
            "DiscreteClock" => Timed::Clock {
                period: entity.parameter("period", 1) as u64,
                offset: offset_of(entity),
                round: 0,
            },
            "Server" => Timed::Server {
                time: entity.parameter("serviceTime", 0) as u64,
                pending: VecDeque::new(),
            },
            "Sampler" => Timed::Sampler { kept: None },
            "AddSubtract" => Timed::AddSubtract,
            "Modal" => Timed::Machine(Machine::of(entity)),
            other => panic!("the class {other} under DE"),
        }
    }

    fn is_delay(&self) -> bool {
        matches!(self, Timed::Server { .. })
    }

    fn wake(&self) -> Option<Tag> {
        match self {
            Timed::Clock { period, offset, round } => Some((round * period + offset, 0)),
            Timed::Server { pending, .. } => pending.front().map(|&(tag, _)| tag),
            Timed::Sampler { .. } | Timed::AddSubtract | Timed::Machine(_) => None,
        }
    }
}

pub struct Events {
    nodes: Vec<Node>,
    timed: Vec<Timed>,
    depths: Vec<u32>,
    /// Where each channel ends, and its token at this tag.
    readers: Vec<usize>,
    tokens: Vec<Option<i64>>,
    traces: Vec<Vec<(Tag, i64)>>,
    wakes: BinaryHeap<Reverse<(Tag, usize)>>,
    active: BinaryHeap<Reverse<(u32, usize)>>,
    is_active: Vec<bool>,
    servers: Vec<usize>,
}

/// How deep each actor is over channels that end at no server.
fn depths_of(timed: &[Timed], channels: &[(usize, usize)]) -> Vec<u32> {
    let mut readers = vec![Vec::new(); timed.len()];
    let mut missing = vec![0; timed.len()];
    for &(from, to) in channels.iter().filter(|&&(_, to)| !timed[to].is_delay()) {
        readers[from].push(to);
        missing[to] += 1;
    }
    let mut depths = vec![0; timed.len()];
    let mut open: Vec<usize> = (0..timed.len()).filter(|&number| missing[number] == 0).collect();
    while let Some(number) = open.pop() {
        for &reader in &readers[number] {
            depths[reader] = depths[reader].max(depths[number] + 1);
            missing[reader] -= 1;
            if missing[reader] == 0 {
                open.push(reader);
            }
        }
    }
    depths
}

impl Events {
    pub fn new(entities: &[Json], nodes: Vec<Node>, channels: &[(usize, usize)]) -> Events {
        let timed: Vec<Timed> = entities.iter().map(Timed::of).collect();
        let wakes = timed.iter().enumerate().filter_map(|(number, it)| it.wake().map(|tag| Reverse((tag, number))));
        Events {
            depths: depths_of(&timed, channels),
            readers: channels.iter().map(|&(_, to)| to).collect(),
            tokens: vec![None; channels.len()],
            traces: vec![Vec::new(); nodes.len()],
            wakes: wakes.collect(),
            active: BinaryHeap::new(),
            is_active: vec![false; nodes.len()],
            servers: Vec::new(),
            nodes,
            timed,
        }
    }

    fn activate(&mut self, number: usize) {
        if !self.is_active[number] {
            self.is_active[number] = true;
            self.active.push(Reverse((self.depths[number], number)));
        }
    }

    fn give(&mut self, tag: Tag, number: usize, token: i64) {
        if self.nodes[number].recorded.is_some() {
            self.traces[number].push((tag, token));
        }
        for at in 0..self.nodes[number].outputs.len() {
            let channel = self.nodes[number].outputs[at];
            self.tokens[channel] = Some(token);
            self.activate(self.readers[channel]);
        }
    }

    fn sum(&mut self, number: usize) -> i64 {
        let node = &self.nodes[number];
        let plus: i64 = node.plus.iter().filter_map(|&place| self.tokens[place].take()).sum();
        let minus: i64 = node.minus.iter().filter_map(|&place| self.tokens[place].take()).sum();
        plus - minus
    }

    fn fire(&mut self, tag: Tag, number: usize) {
        let given = match &mut self.timed[number] {
            Timed::Clock { round, .. } => {
                *round += 1;
                Some(1)
            }
            Timed::Server { pending, .. } => {
                self.servers.push(number);
                let is_due = pending.front().is_some_and(|&(due, _)| due <= tag);
                is_due.then(|| pending.pop_front().expect("a token").1)
            }
            Timed::Sampler { kept } => {
                let node = &self.nodes[number];
                *kept = self.tokens[node.plus[0]].take().or(*kept);
                self.tokens[node.minus[0]].take().and(*kept)
            }
            Timed::AddSubtract => Some(self.sum(number)),
            Timed::Machine(machine) => machine.react(self.tokens[self.nodes[number].plus[0]].take()),
        };
        if !self.timed[number].is_delay() {
            self.wait(number);
        }
        if let Some(token) = given {
            self.give(tag, number, token);
        }
    }

    /// Has the wake of an actor that fired come again.
    fn wait(&mut self, number: usize) {
        if let Some(wake) = self.timed[number].wake() {
            self.wakes.push(Reverse((wake, number)));
        }
    }

    /// A server takes what came to it at the tag.
    fn serve(&mut self, tag: Tag, number: usize) {
        let place = self.nodes[number].plus[0];
        if let (Some(token), Timed::Server { time, pending }) = (self.tokens[place].take(), &mut self.timed[number]) {
            let begin = pending.back().map_or(tag, |&(last, _)| last.max(tag));
            pending.push_back((after(begin, *time), token));
        }
        self.wait(number);
    }

    fn react(&mut self, tag: Tag) {
        while let Some(&Reverse((wake, number))) = self.wakes.peek() {
            if wake > tag {
                break;
            }
            self.wakes.pop();
            // An actor that was woken earlier by an input has left a wake behind.
            if self.timed[number].wake() == Some(wake) {
                self.activate(number);
            }
        }
        let mut fired = Vec::new();
        while let Some(Reverse((_, number))) = self.active.pop() {
            self.fire(tag, number);
            fired.push(number);
        }
        while let Some(number) = self.servers.pop() {
            self.serve(tag, number);
        }
        for number in fired {
            self.is_active[number] = false;
        }
    }

    /// Makes all reactions, and tells how the run ended.
    pub fn run(&mut self, stop: u64) -> &'static str {
        let mut last = None;
        loop {
            let Some(&Reverse((wake, _))) = self.wakes.peek() else { return "end idle\n" };
            let tag = last.map_or(wake, |(time, step)| wake.max((time, step + 1)));
            if tag.0 > stop {
                return "end stop\n";
            }
            self.react(tag);
            last = Some(tag);
        }
    }

    pub fn report(&self, record: &[usize], end: &str) -> Vec<u8> {
        let mut text = Vec::new();
        for &number in record {
            text.extend_from_slice(format!("trace {}.output\n", self.nodes[number].name).as_bytes());
            for (token, &((time, step), value)) in self.traces[number].iter().enumerate() {
                for (mark, number) in [(b' ', token as i64), (b'.', time as i64), (b' ', step as i64), (b'\n', value)] {
                    push_number(&mut text, number);
                    text.push(mark);
                }
            }
        }
        text.extend_from_slice(end.as_bytes());
        text
    }
}
