use crate::answer::Answer;
use pt_document::{Direction, Job, Port};
use pt_frames::Frames;
use pt_graph::flatten;
use pt_moml::read;
use pt_net::{Net, NetEntity};
use pt_resolve::{BrokenAt, broken, net_typing};
use pt_scopes::{Values, nets_are_ordered};
use pt_types::print;
use pt_typing::{Typing, Variable};
use pt_values::values_of;
use std::alloc::{AllocError, Global};

/// Answers a question about the types of a net: what they are, or whether its typing breaks at one of some entities.
pub fn answer(alloc: Global, section: &str, question: &str, out: &mut Answer) {
    match section {
        "types" => answer_about(alloc, "", question, out),
        "broken" => {
            let (paths, document) = question.split_once(": ").unwrap_or(("", question));
            answer_about(alloc, paths, document, out)
        }
        _ => out.no_such_section(),
    }
}

/// The net of a job, if it has one.
fn net_of_job(alloc: Global, job: &Job) -> Option<Net> {
    match flatten(alloc, job) {
        Ok(net) => Some(net),
        Err(_) => None,
    }
}

/// The net of a document, if it has one.
pub fn net_of(alloc: Global, document: &str) -> Option<Net> {
    match read(alloc, document.as_bytes()) {
        Ok(job) => net_of_job(alloc, &job),
        Err(_) => None,
    }
}

fn answer_about(alloc: Global, paths: &str, document: &str, out: &mut Answer) {
    match net_of(alloc, document) {
        Some(net) => tell_net(alloc, paths, &net, out),
        None => out.text("no net"),
    }
}

/// What its texts come to. Where they come to nothing that is told.
pub fn values_in(alloc: Global, net: &Net, out: &mut Answer) -> Option<Values> {
    nets_are_ordered();
    let values = values_of(alloc, net).ok();
    if values.is_none() {
        out.text("no values");
    }
    values
}

fn tell_net(alloc: Global, paths: &str, net: &Net, out: &mut Answer) {
    if let Some(values) = values_in(alloc, net, out) {
        let told = tell_typing(alloc, paths, net, &values, out);
        out.note(told);
    }
}

/// The types of the net, or whether its typing breaks at one of these entities.
fn tell_typing(
    alloc: Global,
    paths: &str,
    net: &Net,
    values: &Values,
    out: &mut Answer,
) -> Result<(), AllocError> {
    let frames = Frames::of(alloc, net, values)?;
    let typing = net_typing(alloc, &frames, net, values)?;
    match broken(alloc, &frames, net, values, &typing)? {
        Some(place) => {
            let path = path_at(net, place);
            out.text(if is_among(path, paths) { "yes" } else { path });
            Ok(())
        }
        None => tell_types(alloc, net, &typing, out),
    }
}

/// The types of the ports that have a channel or are outputs.
fn tell_types(
    alloc: Global,
    net: &Net,
    typing: &Typing,
    out: &mut Answer,
) -> Result<(), AllocError> {
    for (number, entity) in net.entities.iter().enumerate() {
        for (index, port) in entity.ports.iter().enumerate() {
            if is_told(net, number, index, port) {
                tell_port(entity, port, out);
                print(
                    &typing.ty(alloc, Variable::Port(number, index))?,
                    out.bytes(),
                )?;
            }
        }
    }
    Ok(())
}

/// Whether a port has a channel or is an output.
fn is_told(net: &Net, entity: usize, index: usize, port: &Port) -> bool {
    if matches!(port.direction, Direction::Output) {
        return true;
    }
    for channel in &net.channels {
        for end in [channel.from, channel.to] {
            if end.entity as usize == entity && end.port as usize == index {
                return true;
            }
        }
    }
    false
}

/// The path of a port: the bare name at the top.
fn tell_port(entity: &NetEntity, port: &Port, out: &mut Answer) {
    out.between("; ");
    if entity.path.as_str() != "." {
        out.text(entity.path.as_str());
        out.text(".");
    }
    out.text(port.name.as_str());
    out.text(" ");
}

/// The path at which a typing breaks.
fn path_at(net: &Net, place: BrokenAt) -> &str {
    match place {
        BrokenAt::Entity(number) => match net.entities.get(number) {
            Some(entity) => entity.path.as_str(),
            None => "",
        },
        BrokenAt::Transparent(number) => match net.transparent.get(number) {
            Some(composite) => composite.path.as_str(),
            None => "",
        },
    }
}

/// Whether the path is one of these.
fn is_among(path: &str, paths: &str) -> bool {
    for one in paths.split_whitespace() {
        if one == path {
            return true;
        }
    }
    false
}
