use crate::answer::Answer;
use crate::token_texts::show_token;
use crate::typed_nets::{net_of, values_in};
use pt_chart::{Action, Mode, Names, Ports, Transition, Written};
use pt_expr_print::print;
use pt_flow_base::PortTypes;
use pt_frames::Frames;
use pt_language::Expr;
use pt_machines::{NetFault, machines_in};
use pt_net::Net;
use pt_resolve::net_typing;
use pt_scopes::Values;
use pt_types::print as print_type;
use std::alloc::{AllocError, Global};

/// Answers what the machines of the Modal entities of a document are, or which entity has none, and why.
pub fn answer(alloc: Global, section: &str, question: &str, out: &mut Answer) {
    match section {
        "machines" | "refused" => match net_of(alloc, question) {
            Some(net) => tell_net(alloc, &net, out),
            None => out.text("no net"),
        },
        _ => out.no_such_section(),
    }
}

fn tell_net(alloc: Global, net: &Net, out: &mut Answer) {
    if let Some(values) = values_in(alloc, net, out) {
        let told = tell_machines(alloc, net, &values, out);
        out.note(told);
    }
}

fn tell_machines(
    alloc: Global,
    net: &Net,
    values: &Values,
    out: &mut Answer,
) -> Result<(), AllocError> {
    let frames = Frames::of(alloc, net, values)?;
    let typing = net_typing(alloc, &frames, net, values)?;
    match machines_in(alloc, net, values, &typing) {
        Ok(machines) => {
            show_machines(alloc, net, &machines, out);
            Ok(())
        }
        Err(NetFault::Refused(cause, number)) => {
            out.text(path_of(net, number));
            out.text(": ");
            out.shown(alloc, &cause);
            Ok(())
        }
        Err(NetFault::Memory) => Err(AllocError),
    }
}

fn path_of(net: &Net, number: usize) -> &str {
    match net.entities.get(number) {
        Some(entity) => entity.path.as_str(),
        None => "no entity",
    }
}

fn show_machines(alloc: Global, net: &Net, machines: &[Option<Written>], out: &mut Answer) {
    if machines.len() != net.entities.len() {
        out.text("of other entities: ");
    }
    for (number, machine) in machines.iter().enumerate() {
        if let Some(machine) = machine {
            out.between("; ");
            out.text(path_of(net, number));
            show_machine(alloc, machine, out);
        }
    }
}

fn show_machine(alloc: Global, machine: &Written, out: &mut Answer) {
    show_names(&machine.names, out);
    out.text(" | first");
    for value in &machine.values {
        out.text(" ");
        show_token(value, out);
    }
    out.text(" | begins in ");
    out.number(alloc, machine.initial as i128);
    for mode in &machine.modes {
        show_mode(alloc, mode, out);
    }
    for ports in &machine.ports {
        show_ports(alloc, ports, out);
    }
}

fn show_types(kind: &str, types: &PortTypes, out: &mut Answer) {
    out.text(kind);
    for (name, ty) in types.as_slice() {
        out.text(" ");
        out.text(name.as_str());
        out.text(":");
        let printed = print_type(ty, out.bytes());
        out.note(printed);
    }
}

fn show_names(names: &Names, out: &mut Answer) {
    show_types(" | inputs", &names.inputs, out);
    show_types(" | outputs", &names.outputs, out);
    show_types(" | variables", &names.variables, out);
    out.text(" | named");
    for (name, token) in names.parameters.as_slice() {
        out.text(" ");
        out.text(name.as_str());
        out.text("=");
        show_token(token, out);
    }
}

fn show_tree(alloc: Global, tree: &Expr, out: &mut Answer) {
    match print(alloc, tree) {
        Ok(text) => out.text(text.as_str()),
        Err(fault) => out.note(Err(fault)),
    }
}

fn show_actions(alloc: Global, kind: &str, actions: &[Action], out: &mut Answer) {
    for action in actions {
        out.text(kind);
        out.number(alloc, action.target as i128);
        out.text(" = ");
        show_tree(alloc, &action.value, out);
    }
}

fn show_transition(alloc: Global, kind: &str, transition: &Transition, out: &mut Answer) {
    out.text(kind);
    show_tree(alloc, &transition.guard, out);
    show_actions(alloc, ", output ", &transition.outputs, out);
    show_actions(alloc, ", set ", &transition.sets, out);
    out.text(", to ");
    out.number(alloc, transition.target as i128);
    out.either(transition.history, ")", " anew)");
}

fn show_mode(alloc: Global, mode: &Mode, out: &mut Answer) {
    out.text(" | state");
    if let Some(refinement) = mode.refinement {
        out.text(" with ");
        out.number(alloc, refinement as i128);
    }
    for transition in &mode.preemptive {
        show_transition(alloc, " early (", transition, out);
    }
    for transition in &mode.others {
        show_transition(alloc, " (", transition, out);
    }
}

fn show_ports(alloc: Global, ports: &Ports, out: &mut Answer) {
    out.text(" | takes");
    for input in &ports.inputs {
        out.text(" ");
        out.number(alloc, *input as i128);
    }
    out.text(" gives");
    for output in &ports.outputs {
        out.text(" ");
        match output {
            Some(number) => out.number(alloc, *number as i128),
            None => out.text("-"),
        }
    }
}
