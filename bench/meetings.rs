//! The interpreter's Rendezvous: the processes of `networks.rs`, which meet where those of a network have queues.
//!
//! A process that has moved is looked at once: it may meet who receives its next put, or who sends where it gets next. Both have moved then, and fire if they can.

use crate::networks::Process;
use crate::{push_number, push_trace, Actor, Json, Node};
use std::collections::VecDeque;

pub struct Meetings {
    processes: Vec<Process>,
    /// Who sends and who receives on each channel, and how a report tells it.
    ends: Vec<(usize, usize)>,
    places: Vec<String>,
    moved: VecDeque<usize>,
    has_moved: Vec<bool>,
    met: Vec<usize>,
}

/// How a report tells a channel, and the number of its place.
fn place_of(node: &Node, channel: usize) -> (String, usize) {
    let plus = if matches!(node.actor, Actor::AddSubtract) { "plus" } else { "input" };
    if let Some(place) = node.plus.iter().position(|&it| it == channel) {
        return (format!("{}.{plus}.{place}", node.name), place);
    }
    let place = node.minus.iter().position(|&it| it == channel).expect("a place");
    (format!("{}.minus.{place}", node.name), node.plus.len() + place)
}

impl Meetings {
    pub fn new(top: &Json, mut nodes: Vec<Node>, ends: Vec<(usize, usize)>) -> Meetings {
        let (places, numbers): (Vec<String>, Vec<usize>) = ends.iter().enumerate().map(|(channel, &(_, receiver))| place_of(&nodes[receiver], channel)).unzip();
        for node in &mut nodes {
            // A sender puts by the places where its channels end.
            node.outputs.sort_by_key(|&channel| (ends[channel].1, numbers[channel]));
        }
        Meetings {
            places,
            moved: (0..nodes.len()).collect(),
            has_moved: vec![true; nodes.len()],
            met: Vec::new(),
            processes: top.list("entities").iter().zip(nodes).map(|(entity, node)| Process::new(entity, node)).collect(),
            ends,
        }
    }

    /// Makes the firings of a process. Answers `false` where it is stuck.
    fn fire_all(&mut self, number: usize) -> bool {
        let process = &mut self.processes[number];
        while process.next_put().is_none() && !process.is_over() && process.next_get().is_none() {
            if !process.fire() {
                return false;
            }
        }
        true
    }

    /// The channel on which a process may meet.
    fn meeting_of(&self, number: usize) -> Option<usize> {
        let process = &self.processes[number];
        if let Some((channel, _)) = process.next_put() {
            let receiver = &self.processes[self.ends[channel].1];
            return (receiver.waits_for() == Some(channel)).then_some(channel);
        }
        let channel = process.waits_for()?;
        let (put, _) = self.processes[self.ends[channel].0].next_put()?;
        (put == channel).then_some(channel)
    }

    fn note(&mut self, number: usize) {
        if !self.has_moved[number] {
            self.has_moved[number] = true;
            self.moved.push_back(number);
        }
    }

    /// Makes the meeting on a channel. Answers who is stuck then.
    fn meet(&mut self, channel: usize) -> Option<usize> {
        let (sender, receiver) = self.ends[channel];
        let (_, token) = self.processes[sender].next_put().expect("a put");
        self.processes[sender].put_made();
        self.processes[receiver].gathered.push(token);
        self.met.push(channel);
        self.note(sender);
        self.note(receiver);
        [sender, receiver].into_iter().find(|&number| !self.fire_all(number))
    }

    /// Runs until nobody can meet, or to the first process that is stuck.
    pub fn run(&mut self) -> Option<usize> {
        if let Some(stuck) = (0..self.processes.len()).find(|&number| !self.fire_all(number)) {
            return Some(stuck);
        }
        while let Some(number) = self.moved.pop_front() {
            self.has_moved[number] = false;
            if let Some(channel) = self.meeting_of(number) {
                if let Some(stuck) = self.meet(channel) {
                    return Some(stuck);
                }
            }
        }
        None
    }

    pub fn report(&self, record: &[usize], stuck: Option<usize>) -> Vec<u8> {
        let mut text = Vec::new();
        for &number in record {
            push_trace(&mut text, &self.processes[number].node, |_| 0);
        }
        text.extend_from_slice(b"meetings .\n");
        for (index, &channel) in self.met.iter().enumerate() {
            text.extend_from_slice(b"0 ");
            push_number(&mut text, index as i64);
            text.extend_from_slice(b" meet ");
            text.extend_from_slice(self.places[channel].as_bytes());
            text.push(b'\n');
        }
        self.push_end(&mut text, stuck);
        text
    }

    fn push_end(&self, text: &mut Vec<u8>, stuck: Option<usize>) {
        match stuck.map(|number| &self.processes[number].node) {
            None => text.extend_from_slice(b"end deadlock\n"),
            Some(node) => text.extend_from_slice(format!("end fault 31 {} {}\n", node.name, node.firings).as_bytes()),
        }
    }
}
