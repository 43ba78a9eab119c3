use crate::answer::Answer;
use crate::lists::{each, each_in, each_plain};
use crate::numbers::small;
use crate::parsing::{cause, parsed};
use crate::types::{base, show};
use pt_expr_type::{ExprRule, TypeEnv, type_of};
use pt_language::{Expr, NamedExpr, NamedExprs};
use pt_types::{Rule, Ty, below, least};
use pt_value::Text;
use std::alloc::{AllocError, Global};

/// Answers a question about the types of expressions, or about the least types that meet rules.
pub fn answer(alloc: Global, section: &str, question: &str, out: &mut Answer) {
    match section {
        "type" => tell_type(alloc, question, out),
        "type of a field" => tell_record(alloc, question, out),
        "numbers read" => tell_numbers_read(alloc, question, out),
        "least types by expressions" => tell_types_by_expressions(alloc, question, out),
        "least types above int" => tell_types_above_int(alloc, question, out),
        _ => out.no_such_section(),
    }
}

/// Names with their types. Where a name stands twice the later one holds.
const NAMES: [(&str, &str); 4] = [
    ("x", "boolean"),
    ("x", "int"),
    ("s", "string"),
    ("u", "unknown"),
];

fn names(alloc: Global) -> Result<TypeEnv, AllocError> {
    let mut env = TypeEnv::new(alloc);
    for (name, text) in &NAMES {
        env.bind(name, base(text))?;
    }
    Ok(env)
}

/// The text of the type of a tree over those names, or of a fault.
fn tell(alloc: Global, tree: &Expr, out: &mut Answer) {
    let env = out.or(names(alloc), TypeEnv::new(alloc));
    let found = type_of(alloc, tree, &env);
    drop(env);
    match found {
        Ok(ty) => {
            show(&ty, out);
            drop(ty);
        }
        Err(fault) => out.shown(alloc, &fault),
    }
}

fn tell_type(alloc: Global, text: &str, out: &mut Answer) {
    match parsed(alloc, text) {
        Ok(tree) => {
            tell(alloc, &tree, out);
            drop(tree);
        }
        Err(fault) => out.text(cause(fault)),
    }
}

/// A record of one field, whose name may be none.
fn record(alloc: Global, field: &str) -> Result<Expr, AllocError> {
    let name = Text::of(alloc, field)?;
    let value = Expr::Int(1);
    let fields = vec![in alloc; NamedExpr { name, value }]?;
    Ok(Expr::Record(NamedExprs::of(fields)))
}

fn tell_record(alloc: Global, field: &str, out: &mut Answer) {
    let tree = out.or(record(alloc, field), Expr::Int(0));
    tell(alloc, &tree, out);
    drop(tree);
}

/// A name with its number: `x 0`.
fn numbered(alloc: Global, written: &str) -> Result<(Text, u32), AllocError> {
    let (name, place) = written.split_once(' ').unwrap_or((written, ""));
    Ok((Text::of(alloc, name)?, small(place)))
}

/// The rule that the type of an expression is below that of the target, where each name in it has the type at its number:
/// `1: x < 1: x 0, y 1`, where `true` stands in place of what has no tree.
fn rule(alloc: Global, written: &str) -> Result<ExprRule, AllocError> {
    let (target, rest) = written.split_once(": ").unwrap_or((written, ""));
    let (text, names) = rest.split_once(": ").unwrap_or((rest, ""));
    let names = each(alloc, names, ", ", numbered)?;
    let tree = parsed(alloc, text).unwrap_or(Expr::Bool(true));
    ExprRule::new(alloc, small(target), tree, names)
}

fn tell_numbers_read(alloc: Global, written: &str, out: &mut Answer) {
    match rule(alloc, written) {
        Ok(rule) => {
            tell_places(alloc, rule.reads(), out);
            drop(rule);
        }
        Err(fault) => out.note(Err(fault)),
    }
}

fn tell_places(alloc: Global, places: &[u32], out: &mut Answer) {
    for place in places {
        out.between(" ");
        out.number(alloc, i128::from(*place));
    }
}

/// The texts of types, between blanks.
fn show_each(types: &[Ty], out: &mut Answer) {
    for ty in types {
        out.between(" ");
        show(ty, out);
    }
}

/// The least types of so many numbers by some rules for them.
fn tell_least<R: Rule>(alloc: Global, count: u32, rules: &[R], out: &mut Answer) {
    if rules.iter().all(|rule| rule.target() < count) {
        let types = out.or(least(alloc, count, rules), Vec::new(alloc));
        show_each(&types, out);
        drop(types);
    } else {
        out.text("a rule for no number");
    }
}

/// The number of types and what is said of them: `3 types by ..`.
fn counted(written: &str) -> (u32, &str) {
    let (count, rest) = written.split_once(" by ").unwrap_or(("0", written));
    (small(count), rest)
}

fn tell_types_by_expressions(alloc: Global, written: &str, out: &mut Answer) {
    let (count, rest) = counted(written);
    let rules = each_in(alloc, rest, "; ", rule, out);
    tell_least(alloc, count, &rules, out);
}

/// The target's type is above `int`.
#[derive(Drop)]
struct AboveInt {
    target: u32,
}

impl Rule for AboveInt {
    ghost use Rattle.std.specs.Prelude.{refl};
    ghost use Rattle.pt_datatypes.specs.Datatype.{Int};

    ghost target_of = { λ rule. rule.target };

    ghost value_of = { λ _ _. Int };

    ghost grows = { λ _ _ _ _. refl };

    fn target(&self) -> u32 {
        self.target
    }

    fn value(&self, _: Global, _: &[Ty]) -> Result<Ty, AllocError> {
        Ok(Ty::Int)
    }

    fn is_met(&self, _: &[Ty], ty: &Ty) -> bool {
        below(&Ty::Int, ty)
    }

    fn reads(&self) -> &[u32] {
        &[]
    }
}

fn above_int(word: &str) -> AboveInt {
    AboveInt {
        target: small(word),
    }
}

fn tell_types_above_int(alloc: Global, written: &str, out: &mut Answer) {
    let (count, rest) = counted(written);
    let rules = out.or(each_plain(alloc, rest, " ", above_int), Vec::new(alloc));
    tell_least(alloc, count, &rules, out);
}
