//! KIND SIZE ITERATIONS [WORD]: a model of bench/generate is built and fired, and a checksum of its trace is printed. `ticks` and `ticks_back` are under SR, `clocks`, `server` and `spread` under DE, `network` and those below it under PN, `meetings` under Rendezvous.
//! WORD: `bursts` is the interpreter's order of firings, `turns` one firing after another; else it is pt_sched's. `sizes` prints sizes.
use crate::balance::repetitions;
use crate::pt_firing::{Actor, Answer, Counts, Inputs, Need, Ports, Tokens, Values};
use crate::pt_flow_base::Params;
use crate::pt_chart::{Action, Mode, Names, Transition, Written};
use crate::pt_transitions::Chart;
use crate::pt_flow_base::PortTypes;
use crate::pt_language::{BinaryOp, Expr};
use crate::pt_library::LibraryActor;
use crate::pt_types::Ty;
use crate::pt_blocks::{Blocks, fire_block};
use crate::pt_core::Source;
use crate::pt_directors as directors;
use crate::pt_de::DeCore;
use crate::pt_de_plan::{DeInside, DePlan};
use crate::pt_meeting_lines::Inside;
use crate::pt_net::{Channel, End, Net, NetEntity, Port};
use crate::pt_node::{Body, Held, Node};
use crate::pt_past::{Labels, MeetingRecord, Past, Recorded, Records};
use crate::pt_puts::KeptNeed;
use crate::pt_recv::Channels;
use crate::pt_rates::Edge;
use crate::pt_sched::{SchedEdge, Stretch, schedule};
use crate::pt_sdf::Core;
use crate::pt_sdf_parts::CorePlan;
use crate::pt_run::reactions::run_reactions;
use crate::pt_seq::fire_within;
use crate::pt_time::Tag;
use crate::pt_trees::{DeJob, Ended};
use crate::pt_value::{Items, Text, Token};
use crate::pt_firing::Fires;
use crate::rstd::alloc::GLOBAL;
use crate::rstd::vec::Vec as Row;
use std::collections::VecDeque;
use std::vec::Vec;
use std::vec;

#[derive(Clone)]
struct Entity {
    name: String,
    class: &'static str,
    values: Vec<(&'static str, i64)>,
    plus: Vec<usize>,
    minus: Vec<usize>,
    outputs: Vec<usize>,
    /// The channel numbers of the core, of its places in order.
    takes: usize,
    gives: usize,
}

fn entity(name: String, class: &'static str, values: &[(&'static str, i64)]) -> Entity {
    let value = |key: &str, default: i64| values.iter().find(|v| v.0 == key).map_or(default, |v| v.1) as usize;
    Entity {
        takes: if class == "DownSample" { value("factor", 2) } else { 1 },
        gives: if class == "UpSample" { value("factor", 2) } else { 1 },
        name,
        class,
        values: values.to_vec(),
        plus: vec![],
        minus: vec![],
        outputs: vec![],
    }
}

/// The entities, the relations (a source, and the ends), and the number of the recorded entity.
fn document(kind: &str, size: usize) -> (Vec<Entity>, Vec<(usize, Vec<(usize, &'static str)>)>, usize) {
    let mut e = vec![];
    let mut groups = vec![];
    let row = |e: Vec<Entity>| {
        let groups = (1..e.len()).map(|k| (k - 1, vec![(k, "input")])).collect::<Vec<_>>();
        let last = e.len() - 1;
        (e, groups, last)
    };
    match kind {
        "pairs" | "meetings" => {
            for n in 0..size {
                e.push(entity(format!("a{n}"), "Ramp", &[("init", if kind == "pairs" { n as i64 } else { 0 })]));
                e.push(entity(format!("b{n}"), "Scale", &[("factor", n as i64 + 1)]));
                groups.push((2 * n, vec![(2 * n + 1, "input")]));
            }
        }
        "fan" => {
            e.push(entity("ramp".into(), "Ramp", &[]));
            for n in 0..size {
                e.push(entity(format!("b{n}"), "Scale", &[("factor", n as i64 + 1)]));
            }
            groups.push((0, (1..=size).map(|k| (k, "input")).collect()));
        }
        "chain" | "ticks" => {
            e.push(entity("ramp".into(), "Ramp", &[]));
            for n in 0..size {
                e.push(entity(format!("b{n}"), "Scale", &[("factor", -1)]));
            }
            return row(e);
        }
        "ticks_back" => {
            for n in 0..size {
                e.push(entity(format!("b{n}"), "Scale", &[("factor", -1)]));
            }
            e.push(entity("ramp".into(), "Ramp", &[]));
            let groups = (0..size).map(|k| (k + 1, vec![(k, "input")])).collect();
            return (e, groups, 0);
        }
        "clocks" => {
            for n in 0..size {
                e.push(entity(format!("c{n}"), "DiscreteClock", &[("period", 2)]));
                groups.push((n, vec![(size, "plus")]));
            }
            e.push(entity("sum".into(), "AddSubtract", &[]));
        }
        "spread" => {
            for n in 0..size {
                e.push(entity(format!("c{n}"), "DiscreteClock", &[("period", size as i64), ("offsets", n as i64)]));
            }
        }
        "server" => {
            e.push(entity("c".into(), "DiscreteClock", &[("period", 1)]));
            e.push(entity("t".into(), "DiscreteClock", &[("period", 1000)]));
            e.push(entity("s".into(), "Server", &[("serviceTime", 1)]));
            e.push(entity("each".into(), "Sampler", &[]));
            groups = vec![(0, vec![(2, "input")]), (2, vec![(3, "input")]), (1, vec![(3, "trigger")])];
        }
        // A clock into a machine of two states, of which a sampler gives each 999th output.
        "machine" => {
            e.push(entity("c".into(), "DiscreteClock", &[("period", 1)]));
            e.push(entity("t".into(), "DiscreteClock", &[("period", 999)]));
            e.push(entity("m".into(), "Turning", &[]));
            e.push(entity("out".into(), "Sampler", &[]));
            groups = vec![(0, vec![(2, "input")]), (2, vec![(3, "input")]), (1, vec![(3, "trigger")])];
        }
        // A clock whose ticks a machine counts: in one state it gives its input, in the other nothing.
        "states" => {
            e.push(entity("c".into(), "DiscreteClock", &[("period", 1)]));
            e.push(entity("m".into(), "Counting", &[]));
            e.push(entity("out".into(), "Scale", &[]));
            groups = vec![(0, vec![(1, "input")]), (1, vec![(2, "input")])];
        }
        "sum" | "gathered" => {
            e.push(entity("ramp".into(), "Ramp", &[]));
            e.push(entity("sum".into(), "AddSubtract", &[]));
            groups.push((0, vec![(1, "plus"); size]));
        }
        // What `ptrun gen` writes, but for the number of tokens.
        "network" | "flat" => {
            e.push(entity("src".into(), "Ramp", &[]));
            for n in 1..=size {
                let factor = if n % 3 == 0 { -1 } else { 1 };
                let class = if kind == "network" && n % 10 == 0 { "Composite" } else { "Scale" };
                e.push(entity(format!("s{n}"), class, &[("factor", factor)]));
            }
            e.push(entity("sink".into(), "Discard", &[]));
            let (e, groups, last) = row(e);
            return (e, groups, last - 1);
        }
        // SIZE times a ramp into a sum, straight and by a DownSample, so that the straight channel has to grow twice.
        "forks" => {
            for n in 0..size {
                e.push(entity(format!("src{n}"), "Ramp", &[]));
                e.push(entity(format!("down{n}"), "DownSample", &[("factor", 4)]));
                e.push(entity(format!("sum{n}"), "AddSubtract", &[]));
                groups.push((3 * n, vec![(3 * n + 2, "plus"), (3 * n + 1, "input")]));
                groups.push((3 * n + 1, vec![(3 * n + 2, "plus")]));
            }
        }
        // One ramp into SIZE scales, all of which go to a sum.
        "butterfly" => {
            e.push(entity("src".into(), "Ramp", &[]));
            for n in 1..=size {
                e.push(entity(format!("s{n}"), "Scale", &[("factor", 1 + n as i64 % 3)]));
            }
            e.push(entity("sum".into(), "AddSubtract", &[]));
            groups.push((0, (1..=size).map(|k| (k, "input")).collect()));
            for n in 1..=size {
                groups.push((n, vec![(size + 1, "plus")]));
            }
        }
        "stages" => {
            e.push(entity("ramp".into(), "Ramp", &[]));
            for n in 0..size {
                let factor = 2 + n as i64 % 4;
                e.push(entity(format!("u{n}"), "UpSample", &[("factor", factor)]));
                e.push(entity(format!("s{n}"), "Scale", &[("factor", -1)]));
                e.push(entity(format!("d{n}"), "DownSample", &[("factor", factor)]));
            }
            return row(e);
        }
        "discs" => {
            e.push(entity("ramp".into(), "Ramp", &[]));
            for n in 0..size {
                for (stage, (up, down)) in [(2, 3), (2, 7), (8, 7), (5, 1)].into_iter().enumerate() {
                    e.push(entity(format!("u{n}x{stage}"), "UpSample", &[("factor", up)]));
                    e.push(entity(format!("d{n}x{stage}"), "DownSample", &[("factor", down)]));
                }
            }
            return row(e);
        }
        // Not of bench/generate: the order has nearly all firings of an iteration in stretches.
        "repeats" => {
            e.push(entity("ramp".into(), "Ramp", &[]));
            e.push(entity("up".into(), "UpSample", &[("factor", size as i64)]));
            for n in 0..9 {
                e.push(entity(format!("s{n}"), "Scale", &[("factor", -1)]));
            }
            e.push(entity("down".into(), "DownSample", &[("factor", size as i64)]));
            return row(e);
        }
        // Not of bench/generate: every actor's numbers come to the recorded one. `verify` has its document.
        "mixed" => {
            e.push(entity("ramp".into(), "Ramp", &[("init", 3), ("step", 2)]));
            for n in 0..size {
                let k = n as i64;
                e.push(entity(format!("a{n}"), "Scale", &[("factor", k + 2)]));
                e.push(entity(format!("u{n}"), "UpSample", &[("factor", 3), ("phase", k % 3)]));
                e.push(entity(format!("s{n}"), "Scale", &[("factor", -1 - k)]));
                e.push(entity(format!("d{n}"), "DownSample", &[("factor", 3), ("phase", 2 - k % 3)]));
            }
            e.push(entity("sum".into(), "AddSubtract", &[]));
            e.push(entity("out".into(), "Scale", &[("factor", 7)]));
            let sum = 4 * size + 1;
            groups.push((0, (0..size).map(|n| (4 * n + 1, "input")).collect()));
            for n in 0..size {
                for step in 1..4 {
                    groups.push((4 * n + step, vec![(4 * n + step + 1, "input")]));
                }
                groups.push((4 * n + 4, vec![(sum, if n % 2 == 0 { "plus" } else { "minus" })]));
            }
            groups.push((sum, vec![(sum + 1, "input")]));
        }
        _ => panic!("kind"),
    }
    let last = e.len() - 1;
    (e, groups, last)
}

/// Channels by the places where they end, in the order of the children: the ends of each.
fn join(e: &mut [Entity], groups: &[(usize, Vec<(usize, &'static str)>)]) -> Vec<(usize, usize)> {
    let mut of: Vec<(Vec<usize>, Vec<usize>)> = vec![(vec![], vec![]); e.len()];
    for (source, ends) in groups {
        for (node, port) in ends {
            if ["minus", "trigger"].contains(port) { of[*node].1.push(*source) } else { of[*node].0.push(*source) }
        }
    }
    let mut channels = vec![];
    for (node, (plus, minus)) in of.into_iter().enumerate() {
        for source in plus {
            e[node].plus.push(channels.len());
            e[source].outputs.push(channels.len());
            channels.push((source, node));
        }
        for source in minus {
            e[node].minus.push(channels.len());
            e[source].outputs.push(channels.len());
            channels.push((source, node));
        }
    }
    channels
}

fn repetitions_of(nodes: &[Entity], channels: &[(usize, usize)]) -> Vec<usize> {
    repetitions(nodes.len(), channels.iter().map(|&(from, to)| (from, to, nodes[from].gives, nodes[to].takes)))
}

/// The order of the firings, and the most tokens that each channel holds then.
fn ordered(nodes: &[Entity], channels: &[(usize, usize)], by_turns: bool) -> (Vec<u32>, Vec<usize>) {
    let mut left = repetitions_of(nodes, channels);
    let mut held = vec![0; channels.len()];
    let mut room = vec![0; channels.len()];
    let mut waiting: VecDeque<usize> = (0..nodes.len()).collect();
    let mut order = Vec::new();
    while let Some(number) = waiting.pop_front() {
        let node = &nodes[number];
        let places = || node.plus.iter().chain(&node.minus);
        while left[number] > 0 && places().all(|&place| held[place] >= node.takes) {
            places().for_each(|&place| held[place] -= node.takes);
            node.outputs.iter().for_each(|&channel| {
                held[channel] += node.gives;
                room[channel] = room[channel].max(held[channel]);
            });
            left[number] -= 1;
            order.push(number as u32);
            if by_turns {
                break;
            }
        }
        if by_turns {
            if left.iter().any(|&count| count > 0) {
                waiting.push_back(number);
            }
            continue;
        }
        waiting.extend(node.outputs.iter().map(|&channel| channels[channel].1).filter(|&place| left[place] > 0));
    }
    assert!(left.iter().all(|&count| count == 0), "no loop");
    (order, room)
}

/// The order of pt_sched.
fn scheduled(nodes: &[Entity], channels: &[(usize, usize)]) -> (Vec<Stretch>, Vec<usize>) {
    let edges: Row<SchedEdge> = row(channels.iter().map(|&(from, to)| SchedEdge {
        edge: Edge { from: from as u32, produced: nodes[from].gives as u64, to: to as u32, consumed: nodes[to].takes as u64 },
        initial: 0,
    }));
    let q: Row<u64> = row(repetitions_of(nodes, channels).into_iter().map(|n| n as u64));
    let plan = schedule(GLOBAL, nodes.len() as u32, &edges, &q).ok().unwrap();
    (plan.order.iter().copied().collect(), plan.lengths.iter().map(|n| *n as usize).collect())
}

/// Each firing as a stretch of its own.
fn one_by_one((order, room): (Vec<u32>, Vec<usize>)) -> (Vec<Stretch>, Vec<usize>) {
    (order.into_iter().map(|child| Stretch { child, again: 0 }).collect(), room)
}

fn text(words: &str) -> Text {
    Text::of(GLOBAL, words).ok().unwrap()
}

fn row<T>(items: impl IntoIterator<Item = T>) -> Row<T> {
    let mut made = Row::new(GLOBAL);
    for item in items {
        made.push(item).ok().unwrap();
    }
    made
}

fn counts(items: impl IntoIterator<Item = usize>) -> Counts {
    Counts::of(row(items))
}

/// The value of a parameter: an array of one where the class asks for arrays.
fn value_of(name: &str, value: i64) -> Token {
    match name {
        "offsets" => Token::Array(Items::of(row([Token::Int(value)]))),
        _ => Token::Int(value),
    }
}

fn actor_of(e: &Entity) -> LibraryActor {
    let params = Params {
        class: text(e.class),
        values: Values::of(row(e.values.iter().map(|(name, value)| (text(name), value_of(name, *value))))),
        ports: Ports::of(row([
            (text("plus"), e.plus.len() as u32),
            (text("minus"), e.minus.len() as u32),
            (text("input"), e.plus.len() as u32),
        ])),
    };
    LibraryActor::started(GLOBAL, &params).ok().unwrap().unwrap()
}

/// The body of a composite with this director.
fn composite(director: directors::Director) -> Body {
    Body::Composite(directors::Boxed::new(GLOBAL, director).ok().unwrap())
}

/// An SDF composite of a scale between its input and its output.
fn scale_within(e: &Entity) -> (Body, Row<Node>) {
    let scale = entity("k".into(), "Scale", &e.values);
    let plan = CorePlan {
        sources: row([Source::Own(0), Source::Output(0, 0)]),
        places: counts([1]),
        needs: counts([1]),
        rates: row([counts([1])]),
        repetitions: counts([1]),
        takes: counts([1]),
        gives: counts([1]),
        order: row([Stretch { child: 0, again: 0 }]),
        room: counts([1, 1]),
    };
    let core = Core::new(GLOBAL, plan, Channels::new(GLOBAL, 2).ok().unwrap()).ok().unwrap();
    let mut scale = scale;
    scale.plus.push(0);
    (composite(directors::sdf(core)), row([node_of(&scale, false)]))
}

fn name(of: &str) -> Expr {
    Expr::Name(text(of))
}

fn binary(op: BinaryOp, a: Expr, b: Expr) -> Expr {
    Expr::Binary(op, rstd_box(a), rstd_box(b))
}

fn rstd_box(e: Expr) -> crate::rstd::Box<Expr> {
    crate::rstd::Box::new(GLOBAL, e).ok().unwrap()
}

/// A machine of one input, one output and one Variable, without refinements.
fn machine(modes: [[Transition; 2]; 2]) -> Body {
    let types = |names: &[&str]| PortTypes::of(row(names.iter().map(|n| (text(n), Ty::Int))));
    let written = Written {
        names: Names { inputs: types(&["input"]), outputs: types(&["output"]), variables: types(&["n"]), parameters: Values::of(row([])) },
        values: row([Token::Int(0)]),
        initial: 0,
        modes: row(modes.map(|others| Mode { refinement: None, preemptive: row([]), others: row(others) })),
        ports: row([]),
    };
    let chart = Chart::new(GLOBAL, written).ok().unwrap().unwrap();
    let plan = crate::pt_modal::CorePlan::of(GLOBAL, chart, row([])).ok().unwrap();
    composite(directors::modal(crate::pt_modal::Core::new(GLOBAL, plan).ok().unwrap()))
}

fn transition(guard: Expr, gives: Option<Expr>, sets: Expr, target: u32) -> Transition {
    let action = |value| Action { target: 0, value };
    Transition { guard, outputs: row(gives.map(action)), sets: row([action(sets)]), target, history: true }
}

/// Two states: `n` counts ticks, up to three in each.
fn counting() -> [[Transition; 2]; 2] {
    let number = |op, n| binary(op, name("n"), Expr::Int(n));
    [0, 1].map(|here| {
        let gives = (here == 0).then(|| binary(BinaryOp::Add, name("n"), name("input")));
        let stays = transition(number(BinaryOp::Less, 3), gives, number(BinaryOp::Add, 1), here);
        [stays, transition(number(BinaryOp::GreaterEqual, 3), Some(name("n")), Expr::Int(0), 1 - here)]
    })
}

/// Two states that are entered by turns: `n` counts reactions, and is given as it is or as its negative.
fn turning() -> [[Transition; 2]; 2] {
    let reads = |op| binary(op, name("input"), Expr::Int(1));
    let more = || binary(BinaryOp::Add, name("n"), Expr::Int(1));
    [0, 1].map(|here| {
        let gives = if here == 0 { name("n") } else { Expr::Negate(rstd_box(name("n"))) };
        [
            transition(reads(BinaryOp::Equal), Some(gives), more(), 1 - here),
            transition(reads(BinaryOp::Greater), Some(Expr::Int(0)), more(), here),
        ]
    })
}

fn node_of(e: &Entity, recorded: bool) -> Node {
    let (body, children) = if e.class == "Counting" {
        (machine(counting()), Row::new(GLOBAL))
    } else if e.class == "Turning" {
        (machine(turning()), Row::new(GLOBAL))
    } else if e.class == "Composite" {
        scale_within(e)
    } else {
        let start = actor_of(e);
        let actor = start.copy(GLOBAL).ok().unwrap();
        (Body::Actor(Held { start, actor }), Row::new(GLOBAL))
    };
    Node {
        past: Past { made: 0, last: None },
        body,
        children,
        records: Records::of(row(recorded.then(|| Recorded::new(GLOBAL, 0, 0, text("output"))))),
        path: text(&e.name),
        labels: Labels::none(GLOBAL),
        live: true,
        meetings: MeetingRecord::unrecorded(),
    }
}

pub fn sizes() {
    use crate::pt_lib_flow::FlowActor;
    println!(
        "sizes: Node {} Core {} LibraryActor {} FlowActor {} Held {} Body {} Token {} Tokens {} Option<Token> {} Channels {}",
        size_of::<Node>(), size_of::<Core>(), size_of::<LibraryActor>(), size_of::<FlowActor>(), size_of::<Held>(),
        size_of::<Body>(), size_of::<Token>(), size_of::<Tokens>(), size_of::<Option<Token>>(), size_of::<Channels>()
    );
}

pub fn build(kind: &str, size: usize, iterations: u64, by: &str) -> (Node, usize, usize) {
    let (mut entities, groups, last) = document(kind, size);
    let channels = join(&mut entities, &groups);
    if is_network(kind) || kind == "meetings" {
        for ramp in entities.iter_mut().filter(|e| e.class == "Ramp") {
            ramp.values.push(("firingCountLimit", iterations as i64));
        }
        let children = row(entities.iter().enumerate().map(|(k, e)| node_of(e, k == last)));
        if kind == "meetings" {
            return (meetings_of(&entities, &channels, children), 0, last);
        }
        let core = crate::pt_pn::Core::new(GLOBAL, network_plan(&entities, &channels, children.as_slice())).ok().unwrap();
        return (top_of(directors::pn(core), children), 0, last);
    }
    let (order, room) = match by {
        _ if is_timed(kind) => (vec![], vec![]),
        "bursts" => one_by_one(ordered(&entities, &channels, false)),
        "turns" => one_by_one(ordered(&entities, &channels, true)),
        _ => scheduled(&entities, &channels),
    };
    let firings = order.iter().map(|stretch| stretch.again as usize + 1).sum();
    let children = row(entities.iter().enumerate().map(|(k, e)| node_of(e, k == last)));
    let mut needs = vec![];
    for child in children.as_slice().iter().filter(|_| !is_timed(kind)) {
        let Body::Actor(held) = &child.body else { panic!() };
        let Need::All(need) = held.actor.need() else { panic!() };
        needs.extend(need.as_slice().iter().copied());
    }
    assert!(is_timed(kind) || needs.len() == channels.len());
    if kind.starts_with("ticks") {
        let plan = crate::pt_sr::CorePlan {
            sources: row(channels.iter().map(|(from, _)| Source::Output(*from as u32, 0))),
            places: counts(entities.iter().map(|e| e.plus.len() + e.minus.len())),
            outputs: counts(entities.iter().map(|_| 1)),
            nonstrict: row(entities.iter().map(|_| false)),
            takes: counts([]),
            order: row(order.iter().map(|stretch| stretch.child)),
        };
        let core = crate::pt_sr::Core::new(GLOBAL, plan).ok().unwrap();
        return (top_of(directors::sr(core), children), firings, last);
    }
    if is_timed(kind) {
        let core = DeCore::new(GLOBAL, timed_plan(&entities, &channels, children.as_slice())).ok().unwrap();
        return (top_of(directors::de(core), children), firings, last);
    }
    let rates = row(children.as_slice().iter().map(|child| {
        let Body::Actor(held) = &child.body else { panic!() };
        held.actor.rates(GLOBAL).ok().unwrap().unwrap()
    }));
    let plan = CorePlan {
        sources: row(channels.iter().map(|(from, _)| Source::Output(*from as u32, 0))),
        places: counts(entities.iter().map(|e| e.plus.len() + e.minus.len())),
        needs: counts(needs),
        rates,
        repetitions: counts(repetitions_of(&entities, &channels)),
        takes: counts([]),
        gives: counts([]),
        order: row(order),
        room: counts(room),
    };
    let first = Channels::new(GLOBAL, channels.len() as u32).ok().unwrap();
    let core = Core::new(GLOBAL, plan, first).ok().unwrap();
    (top_of(directors::sdf(core), children), firings, last)
}

/// Whether a model is under DE.
fn is_timed(kind: &str) -> bool {
    ["clocks", "server", "spread", "machine", "states"].contains(&kind)
}

/// Whether a model is under PN.
fn is_network(kind: &str) -> bool {
    ["network", "flat", "gathered", "butterfly", "forks"].contains(&kind)
}

/// The plan of a PN composite with the capacities that a director has by default.
fn network_plan(entities: &[Entity], channels: &[(usize, usize)], children: &[Node]) -> crate::pt_process::CorePlan {
    crate::pt_process::CorePlan {
        sources: row(channels.iter().map(|(from, _)| Source::Output(*from as u32, 0))),
        places: counts(entities.iter().map(|e| e.plus.len() + e.minus.len())),
        takes: counts([]),
        initial: 1,
        maximum: 65536,
        first: row(channels.iter().map(|_| Tokens::new())),
        starts: row(children.iter().map(|child| match child.need() {
            Need::Over => None,
            Need::All(need) => Some(need.copy(GLOBAL).ok().unwrap()),
            Need::Any => panic!(),
        })),
    }
}

/// A composite of Rendezvous, with a record of its meetings.
fn meetings_of(entities: &[Entity], channels: &[(usize, usize)], children: Row<Node>) -> Node {
    let plan = crate::pt_rv_plan::CorePlan {
        sources: row(channels.iter().map(|(from, _)| Source::Output(*from as u32, 0))),
        places: counts(entities.iter().map(|e| e.plus.len() + e.minus.len())),
        barriers: row(children.as_slice().iter().map(|child| match &child.body {
            Body::Actor(held) => held.actor.is_barrier(),
            Body::Composite(_) => false,
        })),
        takes: counts([]),
        starts: row(children.as_slice().iter().map(|child| match child.need() {
            Need::Over => KeptNeed::Over,
            Need::All(need) => KeptNeed::Counts(need.copy(GLOBAL).ok().unwrap()),
            Need::Any => KeptNeed::Any,
        })),
    };
    let core = crate::pt_rv::Core::new(GLOBAL, plan).ok().unwrap();
    let mut top = top_of(directors::rendezvous(core), children);
    top.meetings = MeetingRecord::new(GLOBAL);
    top
}

/// The plan of a DE composite, whose depths are those of its kinds of models.
fn timed_plan(entities: &[Entity], channels: &[(usize, usize)], children: &[Node]) -> DePlan {
    let actor = |child: usize| {
        match &children[child].body {
            Body::Actor(held) => Some(&held.actor),
            Body::Composite(_) => None,
        }
    };
    let places = |child: usize| entities[child].plus.len() + entities[child].minus.len();
    let mut delayed = vec![];
    for child in 0..entities.len() {
        delayed.extend((0..places(child)).map(|place| actor(child).is_some_and(|actor| actor.is_delay(place))));
    }
    let is_fed = |child: usize| channels.iter().zip(&delayed).any(|((_, to), delayed)| *to == child && !delayed);
    DePlan {
        depths: row((0..entities.len()).map(|child| if entities[child].name == "out" { 2 } else { is_fed(child) as u32 })),
        inside: DeInside {
            sources: row(channels.iter().map(|(from, _)| Source::Output(*from as u32, 0))),
            places: counts((0..entities.len()).map(places)),
            inputs: 0,
            early: row((0..entities.len()).map(|child| (0..places(child)).any(|place| actor(child).is_some_and(|actor| actor.is_delay(place))))),
            delayed: row(delayed.iter().copied()),
            whole: row((0..entities.len()).map(|child| actor(child).is_some_and(|actor| actor.whole()))),
            starts: row(children.iter().map(|child| child.next())),
        },
    }
}

fn top_of(director: directors::Director, children: Row<Node>) -> Node {
    Node {
        past: Past { made: 0, last: None },
        body: composite(director),
        children,
        records: Records::of(Row::new(GLOBAL)),
        path: text("top"),
        labels: Labels::none(GLOBAL),
        live: true,
        meetings: MeetingRecord::unrecorded(),
    }
}

#[inline(never)]
pub fn run(top: &mut Node, iterations: u64) {
    let mut left = u64::MAX;
    let mut made = 0;
    let mut blocks = if std::env::var("NOBLOCKS").is_ok() { None } else { Blocks::of(GLOBAL, top).ok().unwrap() };
    while made < iterations {
        if let Some(of) = &mut blocks {
            let n = of.within(iterations - made, left);
            if n > 1 {
                if fire_block(GLOBAL, top, of, Tag { time: 0, step: 0 }, n, &mut left) {
                    made += n;
                    continue;
                }
                blocks = None;
            }
        }
        made += 1;
        let inputs: Row<Tokens> = Row::new(GLOBAL);
        match fire_within(GLOBAL, top, Tag { time: 0, step: 0 }, &Inputs::of(&inputs), &mut left) {
            Answer::Done(_) => {}
            _ => panic!("not done"),
        }
    }
}

/// One firing of the top, and how many firings it was.
#[inline(never)]
pub fn fire_once(top: &mut Node) -> u64 {
    let mut left = u64::MAX;
    let inputs: Row<Tokens> = Row::new(GLOBAL);
    match fire_within(GLOBAL, top, Tag { time: 0, step: 0 }, &Inputs::of(&inputs), &mut left) {
        Answer::Done(_) => u64::MAX - left,
        _ => panic!("not done"),
    }
}

/// Reactions until the stop time, and how many firings they were.
#[inline(never)]
pub fn run_until(top: &mut Node, stop: u64) -> u64 {
    let mut left = u64::MAX;
    let job = DeJob { stop: Some(stop), inputs: Row::new(GLOBAL) };
    match run_reactions(GLOBAL, top, &job, u64::MAX, &mut left) {
        Ok(Ended::Stop | Ended::Idle) => u64::MAX - left,
        _ => panic!("not done"),
    }
}

fn checksum(numbers: impl Iterator<Item = i64>) -> (u64, u64) {
    let (mut sum, mut count) = (0u64, 0u64);
    for n in numbers {
        sum = sum.wrapping_mul(1_000_003).wrapping_add(n as u64);
        count += 1;
    }
    (sum, count)
}

/// The net of a model, as far as a report of its meetings looks at it: the top, its children, and the channels between them.
fn net_of(kind: &str, size: usize) -> Net {
    let (mut entities, groups, _) = document(kind, size);
    let channels = join(&mut entities, &groups);
    let port = |name: &str| Port { name: text(name) };
    let mut all = row([NetEntity { path: text("."), ports: row([]) }]);
    for e in &entities {
        all.push(NetEntity { path: text(&e.name), ports: row([port("input"), port("output")]) }).ok().unwrap();
    }
    let end = |node: usize, port: u32| End { entity: node as u32 + 1, port, index: 0 };
    Net { entities: all, channels: row(channels.iter().map(|&(from, to)| Channel { composite: 0, from: end(from, 1), to: end(to, 0) })) }
}

/// Writes the report of a run.
#[inline(never)]
fn told(kind: &str, size: usize, top: &mut Node) {
    use std::io::Write;
    if kind != "meetings" {
        let report = crate::pt_reporting::report(GLOBAL, top, row([]), Ended::Iterations, 1).ok().unwrap();
        let text = crate::pt_trace::text(GLOBAL, &report).ok().unwrap();
        std::io::stdout().write_all(&text).unwrap();
        return;
    }
    let net = net_of(kind, size);
    let children = row(1..net.entities.len());
    let inside = Inside { net: &net, number: 0, composite: &net.entities[0], children: &children, channels: &net.channels };
    let text = report_of(&inside, top);
    std::io::stdout().write_all(&text).unwrap();
    drop(text);
}

#[inline(never)]
fn report_of(inside: &Inside<'_>, top: &mut Node) -> Row<u8> {
    let meetings = inside.meetings(GLOBAL, top.meetings.as_slice().unwrap()).ok().unwrap();
    let report = crate::pt_reporting::report(GLOBAL, top, row([meetings]), Ended::Deadlock, 1).ok().unwrap();
    let text = crate::pt_trace::text(GLOBAL, &report).ok().unwrap();
    drop(report);
    text
}

#[unsafe(no_mangle)]
pub extern "C" fn proto_main() {
    let words: Vec<String> = std::env::args().skip(1).collect();
    let (kind, size, iterations) = (&words[0], words[1].parse().unwrap(), words[2].parse().unwrap());
    let by = words.get(3).map_or("", |word| word);
    let (mut top, firings, last) = build(kind, size, iterations, by);
    let made = match kind.as_str() {
        _ if is_network(kind) || kind == "meetings" => fire_once(&mut top),
        "clocks" => run_until(&mut top, 2 * iterations - 1),
        "server" => run_until(&mut top, size as u64 * iterations - 1),
        "spread" | "machine" | "states" => run_until(&mut top, iterations - 1),
        _ => {
            run(&mut top, iterations);
            (firings as u64 + 1) * iterations
        }
    };
    if words.get(3).is_some_and(|word| word == "report") {
        told(kind, size, &mut top);
        drop(top);
        std::process::exit(0);
    }
    let records = std::mem::replace(&mut top.children[last].records, Records::of(row([])));
    let (_, tokens) = records.into_ports().into_iter().next().unwrap().into_told();
    let (first, numbers, rest) = tokens.parts();
    // Under SDF and SR the tag tells nothing.
    let told = |tag: Tag, n: i64| if is_timed(kind) { n.wrapping_add(tag.time as i64 * 31).wrapping_add(tag.step as i64 * 17) } else { n };
    let behind = rest.iter().map(|(tag, token)| match token {
        Token::Int(n) => told(*tag, *n),
        _ => panic!(),
    });
    let (sum, count) = checksum(numbers.iter().map(|n| told(first, *n)).chain(behind));
    let met = top.meetings.as_slice().map_or(String::new(), |met| format!(" meetings {}", met.len()));
    println!("checksum {sum:016x} tokens {count} firings {made}{met}");
    if words.get(3).is_some_and(|word| word == "sizes") {
        sizes();
    }
    std::process::exit(0);
}
