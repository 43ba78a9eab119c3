//! The interpreter's machines: Modal entities of DE without refinements, with the ports `input` and `output` and with Variables, of integers.
//!
//! Names are found once: a tree refers to the input, or to a Variable by its number. All guards of a state are tested, since two that are enabled would be a fault.

use crate::Json;

enum Tree {
    Number(i64),
    Input,
    Variable(usize),
    Minus(Box<Tree>),
    Binary(Operator, Box<Tree>, Box<Tree>),
}

#[derive(Clone, Copy)]
enum Operator {
    Equal,
    Unequal,
    Less,
    Greater,
    Plus,
    Minus,
    Times,
}

impl Operator {
    fn apply(self, left: i64, right: i64) -> i64 {
        match self {
            Operator::Equal => i64::from(left == right),
            Operator::Unequal => i64::from(left != right),
            Operator::Less => i64::from(left < right),
            Operator::Greater => i64::from(left > right),
            Operator::Plus => left.checked_add(right).expect("64 bits"),
            Operator::Minus => left.checked_sub(right).expect("64 bits"),
            Operator::Times => left.checked_mul(right).expect("64 bits"),
        }
    }
}

impl Tree {
    /// The value, a truth value as 0 or 1, or nothing where the input that it reads is absent.
    fn value(&self, input: Option<i64>, values: &[i64]) -> Option<i64> {
        match self {
            Tree::Number(number) => Some(*number),
            Tree::Input => input,
            Tree::Variable(number) => Some(values[*number]),
            Tree::Minus(tree) => Some(tree.value(input, values)?.checked_neg().expect("64 bits")),
            Tree::Binary(operator, left, right) => Some(operator.apply(left.value(input, values)?, right.value(input, values)?)),
        }
    }
}

/// Reads comparisons of sums of products, with parentheses.
struct Parser<'a> {
    rest: &'a str,
    names: &'a [&'a str],
}

impl Parser<'_> {
    fn take(&mut self, word: &str) -> bool {
        self.rest = self.rest.trim_start();
        let rest = self.rest.strip_prefix(word);
        self.rest = rest.unwrap_or(self.rest);
        rest.is_some()
    }

    fn operator(&mut self, words: &[(&str, Operator)]) -> Option<Operator> {
        words.iter().find(|(word, _)| self.take(word)).map(|&(_, operator)| operator)
    }

    fn expression(&mut self) -> Tree {
        let left = self.sum();
        let comparisons = [("==", Operator::Equal), ("!=", Operator::Unequal), ("<", Operator::Less), (">", Operator::Greater)];
        match self.operator(&comparisons) {
            Some(operator) => Tree::Binary(operator, Box::new(left), Box::new(self.sum())),
            None => left,
        }
    }

    fn sum(&mut self) -> Tree {
        let mut left = self.product();
        while let Some(operator) = self.operator(&[("+", Operator::Plus), ("-", Operator::Minus)]) {
            left = Tree::Binary(operator, Box::new(left), Box::new(self.product()));
        }
        left
    }

    fn product(&mut self) -> Tree {
        let mut left = self.factor();
        while let Some(operator) = self.operator(&[("*", Operator::Times)]) {
            left = Tree::Binary(operator, Box::new(left), Box::new(self.factor()));
        }
        left
    }

    fn factor(&mut self) -> Tree {
        if self.take("-") {
            return Tree::Minus(Box::new(self.factor()));
        }
        if self.take("(") {
            let inner = self.expression();
            assert!(self.take(")"), "a parenthesis");
            return inner;
        }
        let end = self.rest.find(|sign: char| !sign.is_alphanumeric() && sign != '_').unwrap_or(self.rest.len());
        let (word, rest) = self.rest.split_at(end);
        self.rest = rest;
        match word.parse() {
            Ok(number) => Tree::Number(number),
            Err(_) if word == "input" => Tree::Input,
            Err(_) => Tree::Variable(number_of(self.names, word)),
        }
    }
}

fn number_of(names: &[&str], name: &str) -> usize {
    names.iter().position(|&it| it == name).unwrap_or_else(|| panic!("the name {name}"))
}

fn tree_of(text: &str, names: &[&str]) -> Tree {
    let mut parser = Parser { rest: text, names };
    let tree = parser.expression();
    assert!(parser.rest.trim().is_empty(), "an expression");
    tree
}

struct Transition {
    guard: Tree,
    outputs: Vec<Tree>,
    sets: Vec<(usize, Tree)>,
    target: usize,
}

pub struct Machine {
    /// The transitions of each state.
    states: Vec<Vec<Transition>>,
    state: usize,
    values: Vec<i64>,
}

fn names_of<'a>(items: &'a [Json]) -> Vec<&'a str> {
    items.iter().map(|item| item.text("name")).collect()
}

impl Machine {
    pub fn of(entity: &Json) -> Machine {
        let states = names_of(entity.list("states"));
        let names = names_of(entity.list("properties"));
        let mut machine = Machine {
            states: states.iter().map(|_| Vec::new()).collect(),
            state: number_of(&states, entity.text("initial")),
            values: entity.list("properties").iter().map(|it| it.text("value").parse().expect("a literal")).collect(),
        };
        assert!(entity.list("entities").is_empty(), "no refinements");
        for transition in entity.list("transitions") {
            assert!(transition.get("preemptive").is_none(), "no preemptive transitions");
            machine.states[number_of(&states, transition.text("from"))].push(Transition {
                guard: tree_of(transition.text("guard"), &names),
                outputs: transition.list("output").iter().map(|it| tree_of(it.text("value"), &names)).collect(),
                sets: transition.list("set").iter().map(|it| (number_of(&names, it.text("name")), tree_of(it.text("value"), &names))).collect(),
                target: number_of(&states, transition.text("to")),
            });
        }
        machine
    }

    /// One reaction: what it gives, if anything.
    pub fn react(&mut self, input: Option<i64>) -> Option<i64> {
        let mut chosen = None;
        for transition in &self.states[self.state] {
            if transition.guard.value(input, &self.values) == Some(1) {
                assert!(chosen.is_none(), "one enabled guard");
                chosen = Some(transition);
            }
        }
        let transition = chosen?;
        let given = transition.outputs.iter().filter_map(|tree| tree.value(input, &self.values)).last();
        for (variable, tree) in &transition.sets {
            if let Some(value) = tree.value(input, &self.values) {
                self.values[*variable] = value;
            }
        }
        self.state = transition.target;
        given
    }
}
