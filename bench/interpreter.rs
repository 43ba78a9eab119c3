//! A hand-written interpreter of flat dataflow models, to measure ptrun against.
//!
//! It reads the same documents on standard input and writes the same reports, for models of Ramp, Scale,
//! AddSubtract, UpSample, Repeat of single tokens and DownSample under SDF, of the first three under SR, of what `events.rs` and `machines.rs` know
//! under DE, or of what `networks.rs` knows under PN and, of single actors, under Rendezvous, whose actors stand right in the top.
//! It does what such a model needs and no more: an iteration, or a tick, is an order of firings that is found once. It
//! refuses nothing by name; a document that it doesn't know ends it with a panic. Plain Rust over std alone: `rustc --edition 2021 -O interpreter.rs`.

mod balance;
mod events;
mod machines;
mod meetings;
mod networks;

use balance::repetitions;
use events::Events;
use meetings::Meetings;
use networks::Network;
use std::collections::{HashMap, VecDeque};
use std::io::{Read, Write};

// ---- JSON

enum Json {
    Text(String),
    List(Vec<Json>),
    Object(Vec<(String, Json)>),
    Other,
}

struct Reader<'a> {
    bytes: &'a [u8],
    place: usize,
}

impl Reader<'_> {
    fn blanks(&mut self) {
        while self.place < self.bytes.len() && matches!(self.bytes[self.place], b' ' | b'\t' | b'\n' | b'\r') {
            self.place += 1;
        }
    }

    fn peek(&mut self) -> u8 {
        self.blanks();
        self.bytes[self.place]
    }

    fn take(&mut self, byte: u8) -> bool {
        let found = self.peek() == byte;
        self.place += usize::from(found);
        found
    }

    fn text(&mut self) -> String {
        assert!(self.take(b'"'), "a text");
        let start = self.place;
        while self.bytes[self.place] != b'"' {
            assert!(self.bytes[self.place] != b'\\', "texts without escapes");
            self.place += 1;
        }
        self.place += 1;
        String::from_utf8(self.bytes[start..self.place - 1].to_vec()).expect("UTF-8")
    }

    fn value(&mut self) -> Json {
        match self.peek() {
            b'"' => Json::Text(self.text()),
            b'[' => Json::List(self.items(b']', Reader::value)),
            b'{' => Json::Object(self.items(b'}', |reader| {
                let key = reader.text();
                assert!(reader.take(b':'), "a colon");
                (key, reader.value())
            })),
            _ => {
                while !matches!(
                    self.bytes.get(self.place),
                    None | Some(b',' | b']' | b'}' | b' ' | b'\n')
                ) {
                    self.place += 1;
                }
                Json::Other
            }
        }
    }

    fn items<T>(&mut self, close: u8, mut item: impl FnMut(&mut Self) -> T) -> Vec<T> {
        self.place += 1;
        let mut found = Vec::new();
        if self.take(close) {
            return found;
        }
        loop {
            found.push(item(self));
            if self.take(close) {
                return found;
            }
            assert!(self.take(b','), "a comma");
        }
    }
}

impl Json {
    fn get(&self, key: &str) -> Option<&Json> {
        match self {
            Json::Object(members) => members
                .iter()
                .rev()
                .find(|(name, _)| name == key)
                .map(|(_, value)| value),
            _ => None,
        }
    }

    fn text(&self, key: &str) -> &str {
        match self.get(key) {
            Some(Json::Text(text)) => text,
            _ => panic!("a text {key}"),
        }
    }

    fn list(&self, key: &str) -> &[Json] {
        match self.get(key) {
            Some(Json::List(items)) => items,
            _ => &[],
        }
    }

    fn parameter(&self, name: &str, default: i64) -> i64 {
        let found = self
            .list("properties")
            .iter()
            .find(|property| property.text("name") == name);
        found.map_or(default, |property| property.text("value").parse().expect("a literal"))
    }
}

// ---- models

enum Actor {
    Ramp { init: i64, step: i64 },
    Scale { factor: i64 },
    AddSubtract,
    UpSample { factor: usize, phase: usize },
    Repeat { times: usize },
    DownSample { factor: usize, phase: usize },
    /// An actor of DE, of which `events.rs` has the rest.
    Timed,
    /// Of PN alone, of which `networks.rs` has the rest.
    Discard,
    Composite,
}

impl Actor {
    /// How many tokens a firing takes from each channel.
    fn takes(&self) -> usize {
        match self {
            Actor::DownSample { factor, .. } => *factor,
            _ => 1,
        }
    }

    /// How many tokens a firing gives to each channel.
    fn gives(&self) -> usize {
        match self {
            Actor::UpSample { factor, .. } => *factor,
            Actor::Repeat { times } => *times,
            Actor::Discard => 0,
            _ => 1,
        }
    }
}

/// An actor with the channels at its ports, and what it has fired and recorded.
struct Node {
    name: String,
    actor: Actor,
    plus: Vec<usize>,
    minus: Vec<usize>,
    outputs: Vec<usize>,
    firings: u64,
    recorded: Option<Vec<i64>>,
}

struct Model {
    nodes: Vec<Node>,
    channels: Vec<VecDeque<i64>>,
    order: Vec<usize>,
    iterations: u64,
    /// Under SR iteration n is the tick at the tag n.0.
    ticks: bool,
    record: Vec<usize>,
}

fn actor_of(entity: &Json) -> Actor {
    match entity.text("class") {
        "Ramp" => Actor::Ramp {
            init: entity.parameter("init", 0),
            step: entity.parameter("step", 1),
        },
        "Scale" => Actor::Scale {
            factor: entity.parameter("factor", 1),
        },
        "AddSubtract" => Actor::AddSubtract,
        "UpSample" => Actor::UpSample {
            factor: entity.parameter("factor", 2) as usize,
            phase: entity.parameter("phase", 0) as usize,
        },
        "Repeat" => Actor::Repeat {
            times: entity.parameter("numberOfTimes", 2) as usize,
        },
        "DownSample" => Actor::DownSample {
            factor: entity.parameter("factor", 2) as usize,
            phase: entity.parameter("phase", 0) as usize,
        },
        "DiscreteClock" | "Server" | "Sampler" | "Modal" => Actor::Timed,
        "Discard" => Actor::Discard,
        "Composite" => Actor::Composite,
        other => panic!("the class {other}"),
    }
}

fn node_of(entity: &Json) -> Node {
    node(entity.text("name"), actor_of(entity))
}

fn node(name: &str, actor: Actor) -> Node {
    Node {
        name: name.to_string(),
        actor,
        plus: Vec::new(),
        minus: Vec::new(),
        outputs: Vec::new(),
        firings: 0,
        recorded: None,
    }
}

/// The actors in a composite, the order in which they fire in an iteration, how many channels there are, and which of them begin at its one input and end at its one output.
fn entities_of(composite: &Json) -> (Vec<Node>, Vec<usize>, usize, [usize; 2]) {
    let mut nodes: Vec<Node> = composite.list("entities").iter().map(node_of).collect();
    let count = nodes.len();
    // An own port is joined as an actor that stands behind the others.
    nodes.extend(composite.list("ports").iter().map(|port| node(port.text("name"), Actor::Scale { factor: 1 })));
    let ends = join(composite, &mut nodes);
    let order = ordered(&nodes, &ends).into_iter().filter(|&number| number < count).collect();
    let own = nodes.split_off(count);
    let input = own.iter().flat_map(|port| &port.outputs).next().expect("an input");
    let output = own.iter().flat_map(|port| &port.plus).next().expect("an output");
    (nodes, order, ends.len(), [*input, *output])
}

/// The source of each relation, then a channel for each place that is linked to it. Gives the ends of the channels.
fn join(top: &Json, nodes: &mut [Node]) -> Vec<(usize, usize)> {
    let numbers: HashMap<String, usize> = nodes
        .iter()
        .enumerate()
        .map(|(number, node)| (node.name.clone(), number))
        .collect();
    // Seen from within, an own input is a source, and an own output takes.
    let ends = |link: &Json| match link.text("port").split_once('.') {
        Some((entity, port)) => (numbers[entity], port.to_string()),
        None => (numbers[link.text("port")], if link.text("port") == "input" { "output" } else { "input" }.to_string()),
    };
    let mut sources = HashMap::new();
    for link in top.list("links") {
        let (node, port) = ends(link);
        if port == "output" {
            sources.insert(link.text("relation").to_string(), node);
        }
    }
    let mut channels = Vec::new();
    for link in top.list("links") {
        let (node, port) = ends(link);
        let source = sources[link.text("relation")];
        match port.as_str() {
            "output" => continue,
            "input" | "plus" => nodes[node].plus.push(channels.len()),
            "minus" | "trigger" => nodes[node].minus.push(channels.len()),
            other => panic!("the port {other}"),
        }
        nodes[source].outputs.push(channels.len());
        channels.push((source, node));
    }
    channels
}

/// An order of firings in which no token lacks: whoever can fire does so as often as it can.
fn ordered(nodes: &[Node], channels: &[(usize, usize)]) -> Vec<usize> {
    let flows = channels
        .iter()
        .map(|&(from, to)| (from, to, nodes[from].actor.gives(), nodes[to].actor.takes()));
    let mut left = repetitions(nodes.len(), flows);
    let mut held = vec![0; channels.len()];
    let mut waiting: VecDeque<usize> = (0..nodes.len()).collect();
    let mut order = Vec::new();
    while let Some(number) = waiting.pop_front() {
        let node = &nodes[number];
        while left[number] > 0 && node.places().all(|&place| held[place] >= node.actor.takes()) {
            node.places().for_each(|&place| held[place] -= node.actor.takes());
            node.outputs.iter().for_each(|&channel| held[channel] += node.actor.gives());
            left[number] -= 1;
            order.push(number);
        }
        waiting.extend(node.outputs.iter().map(|&channel| channels[channel].1).filter(|&place| left[place] > 0));
    }
    assert!(left.iter().all(|&count| count == 0), "no loop");
    order
}

fn director_of(top: &Json) -> &Json {
    let mut properties = top.list("properties").iter();
    properties.find(|property| property.get("class").is_some()).expect("a director")
}

/// The recorded actors.
fn recorded(job: &Json, nodes: &mut [Node]) -> Vec<usize> {
    let mut record = Vec::new();
    for port in job.list("record") {
        let Json::Text(port) = port else {
            panic!("a recorded text")
        };
        let name = port.strip_suffix(".output").expect("an output");
        let number = nodes
            .iter()
            .position(|node| node.name == name)
            .expect("a recorded actor");
        nodes[number].recorded = Some(Vec::new());
        record.push(number);
    }
    record
}

fn model_of(job: &Json) -> Model {
    let top = job.get("model").expect("a model");
    let director = director_of(top);
    let mut nodes: Vec<Node> = top.list("entities").iter().map(node_of).collect();
    let channels = join(top, &mut nodes);
    let record = recorded(job, &mut nodes);
    let order = ordered(&nodes, &channels);
    let iterations = director.parameter("iterations", 0) as u64;
    Model {
        nodes,
        channels: vec![VecDeque::new(); channels.len()],
        order,
        iterations,
        ticks: director.text("class") == "SR",
        record,
    }
}

// ---- runs

fn take(channels: &mut [VecDeque<i64>], place: usize) -> i64 {
    channels[place].pop_front().expect("a token")
}

fn sum(channels: &mut [VecDeque<i64>], places: &[usize]) -> i128 {
    places.iter().map(|&place| i128::from(take(channels, place))).sum()
}

impl Node {
    fn places(&self) -> impl Iterator<Item = &usize> {
        self.plus.iter().chain(&self.minus)
    }

    /// What one firing gives, where it is one number, or nothing where it leaves 64 bits.
    fn step(&self, channels: &mut [VecDeque<i64>]) -> Option<i64> {
        match self.actor {
            Actor::Ramp { init, step } => {
                i64::try_from(i128::from(init) + i128::from(self.firings) * i128::from(step)).ok()
            }
            Actor::Scale { factor } => take(channels, self.plus[0]).checked_mul(factor),
            Actor::AddSubtract => i64::try_from(sum(channels, &self.plus) - sum(channels, &self.minus)).ok(),
            Actor::DownSample { factor, phase } => {
                let taken = channels[self.plus[0]].drain(..factor);
                taken.rev().nth(phase)
            }
            Actor::UpSample { .. } | Actor::Repeat { .. } => unreachable!("a burst"),
            Actor::Timed | Actor::Discard | Actor::Composite => unreachable!("an actor of DE or PN"),
        }
    }

    fn give(&mut self, channels: &mut [VecDeque<i64>], token: i64) {
        for &channel in &self.outputs {
            channels[channel].push_back(token);
        }
        if let Some(recorded) = &mut self.recorded {
            recorded.push(token);
        }
    }

    fn fire(&mut self, channels: &mut [VecDeque<i64>]) -> bool {
        if let Actor::UpSample { factor, phase } = self.actor {
            let token = take(channels, self.plus[0]);
            for number in 0..factor {
                self.give(channels, if number == phase { token } else { 0 });
            }
        } else if let Actor::Repeat { times } = self.actor {
            let token = take(channels, self.plus[0]);
            for _ in 0..times {
                self.give(channels, token);
            }
        } else {
            let Some(token) = self.step(channels) else { return false };
            self.give(channels, token);
        }
        self.firings += 1;
        true
    }
}

impl Model {
    /// Makes all iterations, up to the first actor that is stuck.
    fn run(&mut self) -> Option<usize> {
        for _ in 0..self.iterations {
            for &number in &self.order {
                if !self.nodes[number].fire(&mut self.channels) {
                    return Some(number);
                }
            }
        }
        None
    }

    fn report(&self, stuck: Option<usize>) -> Vec<u8> {
        let mut text = Vec::new();
        for &number in &self.record {
            push_trace(&mut text, &self.nodes[number], |token| if self.ticks { token as i64 } else { 0 });
        }
        match stuck.map(|number| &self.nodes[number]) {
            None => text.extend_from_slice(b"end iterations\n"),
            Some(node) => text.extend_from_slice(format!("end fault 31 {} {}\n", node.name, node.firings).as_bytes()),
        }
        text
    }
}

/// The trace of a node, by the time of each token.
fn push_trace(text: &mut Vec<u8>, node: &Node, time: impl Fn(usize) -> i64) {
    text.extend_from_slice(format!("trace {}.output\n", node.name).as_bytes());
    for (token, value) in node.recorded.iter().flatten().enumerate() {
        push_number(text, token as i64);
        text.push(b' ');
        push_number(text, time(token));
        text.extend_from_slice(b".0 ");
        push_number(text, *value);
        text.push(b'\n');
    }
}

fn push_number(text: &mut Vec<u8>, number: i64) {
    let mut digits = [0; 20];
    let mut start = digits.len();
    let mut rest = number.unsigned_abs();
    loop {
        start -= 1;
        digits[start] = b'0' + (rest % 10) as u8;
        rest /= 10;
        if rest == 0 {
            break;
        }
    }
    if number < 0 {
        text.push(b'-');
    }
    text.extend_from_slice(&digits[start..]);
}

/// Runs a model of DE, and gives its report.
fn report_events(job: &Json) -> Vec<u8> {
    let top = job.get("model").expect("a model");
    let mut nodes: Vec<Node> = top.list("entities").iter().map(node_of).collect();
    let channels = join(top, &mut nodes);
    let record = recorded(job, &mut nodes);
    let mut events = Events::new(top.list("entities"), nodes, &channels);
    let end = events.run(director_of(top).parameter("stopTime", i64::MAX) as u64);
    events.report(&record, end)
}

/// Runs a model of PN, and gives its report and the exit status.
fn report_network(job: &Json) -> (Vec<u8>, i32) {
    let top = job.get("model").expect("a model");
    let mut nodes: Vec<Node> = top.list("entities").iter().map(node_of).collect();
    let channels = join(top, &mut nodes);
    let record = recorded(job, &mut nodes);
    let mut network = Network::new(top, nodes, &channels);
    let stuck = network.run();
    (network.report(&record, stuck), if stuck.is_some() { 3 } else { 0 })
}

/// Runs a model of Rendezvous, and gives its report and the exit status.
fn report_meetings(job: &Json) -> (Vec<u8>, i32) {
    let top = job.get("model").expect("a model");
    let mut nodes: Vec<Node> = top.list("entities").iter().map(node_of).collect();
    let channels = join(top, &mut nodes);
    let record = recorded(job, &mut nodes);
    let mut meetings = Meetings::new(top, nodes, channels);
    let stuck = meetings.run();
    (meetings.report(&record, stuck), if stuck.is_some() { 3 } else { 0 })
}

/// Runs a model of SDF or SR, and gives its report and the exit status.
fn report_iterations(job: &Json) -> (Vec<u8>, i32) {
    let mut model = model_of(job);
    let stuck = model.run();
    (model.report(stuck), if stuck.is_some() { 3 } else { 0 })
}

fn main() {
    let mut bytes = Vec::new();
    std::io::stdin().lock().read_to_end(&mut bytes).expect("standard input");
    let job = Reader {
        bytes: &bytes,
        place: 0,
    }
    .value();
    let (report, status) = match director_of(job.get("model").expect("a model")).text("class") {
        "DE" => (report_events(&job), 0),
        "PN" => report_network(&job),
        "Rendezvous" => report_meetings(&job),
        _ => report_iterations(&job),
    };
    std::io::stdout().lock().write_all(&report).expect("standard output");
    std::process::exit(status);
}
