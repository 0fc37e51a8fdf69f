//! Values and steps: document 01, "Steps", with the paper's rules 35 to 57; one clause per rule.

use crate::fault::Bend;
use crate::term::{put_for_names, rebuilt, tree, Node, Term, Tree};
use crate::types::Types;

/// A foreign call that a step would send.
#[derive(Debug)]
pub struct Call {
    pub tool: u32,
    pub result: u16,
    pub arguments: Vec<Tree>,
    /// The application that the future replaces.
    pub whole: Tree,
}

/// The one step that the rules make: the rule, the next term, and the call if it sends one.
#[derive(Debug)]
pub struct Step {
    pub rule: &'static str,
    pub next: Tree,
    pub call: Option<Call>,
}

/// "Values: kinds 1 to 4, 6, 7, 12, 15; cons and tuple of values." A function that holds futures is a value too.
pub fn is_value(term: &Term) -> bool {
    match &term.node {
        Node::Str(_) | Node::File(_) | Node::True | Node::False => true,
        Node::Native(_) | Node::Foreign(_) | Node::Nil | Node::Zip(..) => true,
        Node::Cons(head, tail) => is_value(head) && is_value(tail),
        Node::Tuple(elements) => elements.iter().all(|element| is_value(element)),
        _ => false,
    }
}

/// What the rules need besides the term: the types, and the number that a future made now would carry.
pub struct Stepper<'a> {
    pub types: &'a Types,
    pub number: u32,
    /// Only a bent evaluator ever bars sends.
    pub sends_barred: bool,
    pub bend: Bend,
}

impl Stepper<'_> {
    /// "A step is made at the first fitting place, outer before inner." None: "Nothing else steps."
    pub fn step(&self, term: &Tree) -> Option<Step> {
        if let Some(detour) = self.detour(term) {
            return detour;
        }
        match &term.node {
            Node::Apply(function, arguments) => match &function.node {
                Node::Native(body) => Some(self.apply_native(function, body, arguments)),
                Node::Foreign(tool) => self.apply_foreign(term, *tool, arguments),
                Node::Zip(mask, inner) => self.apply_zip(term, function, *mask, inner, arguments),
                // "Apply of anything else: its function steps." Rule 49.
                _ => self.child_steps(term, 0, function),
            },
            // "Let: put the bound term, unevaluated, for the free names." Rule 48.
            Node::Let(name, bound, body) => {
                let bindings = [(*name, bound.clone())];
                Some(quiet("48 let", put_for_names(body, &bindings, self.types, self.bend)))
            }
            Node::Fix(function) => self.fix(term, function, term),
            // "If, isnil, project, list project: when the child is true or false, nil or cons, a tuple, nil or cons, they
            // reduce at once, elements unevaluated. Otherwise the child steps."
            // If: rules 38, 39 and the congruence for the condition.
            Node::If(condition, then, other) => match &condition.node {
                Node::True => Some(quiet("38 if true", then.clone())),
                Node::False => Some(quiet("39 if false", other.clone())),
                _ => self.child_steps(term, 0, condition),
            },
            // Isnil: rules 41 and 42.
            Node::Isnil(list) => match &list.node {
                Node::Nil => Some(quiet("41 isnil of nil", tree(term.ty, Node::True))),
                Node::Cons(..) => Some(quiet("42 isnil of cons", tree(term.ty, Node::False))),
                _ => self.child_steps(term, 0, list),
            },
            // Project: rule 45.
            Node::Project(place, tuple) => match &tuple.node {
                Node::Tuple(elements) => {
                    elements.get(usize::from(*place) - 1).map(|element| quiet("45 project", element.clone()))
                }
                _ => self.child_steps(term, 0, tuple),
            },
            // List project: rules 46 and 47.
            Node::ListProject(place, list) => match &list.node {
                Node::Nil => Some(quiet("46 list project of nil", tree(term.ty, Node::Nil))),
                Node::Cons(head, tail) => {
                    let element = self.types.row(term.ty).result;
                    Some(project_cons(term, *place, head, tail, element))
                }
                _ => self.child_steps(term, 0, list),
            },
            // "Cons and tuple: the first child that can step."
            Node::Cons(head, tail) => self.child_steps(term, 0, head).or_else(|| self.child_steps(term, 1, tail)),
            Node::Tuple(elements) => {
                elements.iter().enumerate().find_map(|(k, element)| self.child_steps(term, k, element))
            }
            // "Nothing else steps": values, futures, and names, which no place holds that the rules look at.
            Node::Str(_) | Node::File(_) | Node::True | Node::False | Node::Nil => None,
            Node::Native(_) | Node::Foreign(_) | Node::Zip(..) => None,
            Node::Variable(_) | Node::Future(_) => None,
        }
    }

    /// The whole steps because one child does.
    pub(crate) fn child_steps(&self, whole: &Tree, which: usize, child: &Tree) -> Option<Step> {
        let step = self.step(child)?;
        let next = rebuilt(whole, |k, old| if k == which { step.next.clone() } else { old.clone() });
        Some(Step { next, ..step })
    }

    /// "Apply of a native function: put the arguments, unevaluated, for the free names at once." Rules 35 and 36, all
    /// arguments as one step (reading 12).
    fn apply_native(&self, function: &Tree, body: &Tree, arguments: &[Tree]) -> Step {
        let names = self.types.row(function.ty).parts().iter().map(|part| part.name);
        let bindings: Vec<_> = names.zip(arguments.iter().cloned()).collect();
        quiet("35, 36 apply native", put_for_names(body, &bindings, self.types, self.bend))
    }

    /// "Apply of a foreign function: all arguments values, then the whole becomes a future with the next number and a
    /// call is sent; else the first argument that can step does." Rules 37 and 50.
    fn apply_foreign(&self, whole: &Tree, tool: u32, arguments: &[Tree]) -> Option<Step> {
        if arguments.iter().all(|argument| is_value(argument)) {
            return Some(self.send(whole, tool, arguments, whole.ty));
        }
        arguments.iter().enumerate().find_map(|(k, argument)| self.child_steps(whole, 1 + k, argument))
    }

    /// The application becomes a future of the stated type, and its call is sent.
    pub(crate) fn send(&self, whole: &Tree, tool: u32, arguments: &[Tree], ty: u16) -> Step {
        let call = Call { tool, result: whole.ty, arguments: arguments.to_vec(), whole: whole.clone() };
        Step { rule: "37 send", next: tree(ty, Node::Future(self.number)), call: Some(call) }
    }

    /// "Apply of a zip (house)": reading 10. Rules 43 and 44.
    fn apply_zip(&self, whole: &Tree, zip: &Tree, mask: u8, inner: &Tree, arguments: &[Tree]) -> Option<Step> {
        let masked: Vec<_> = arguments.iter().enumerate().filter(|(k, _)| mask >> k & 1 == 1).collect();
        // "The first masked argument that is neither nil nor cons and can step does."
        let mut unready = masked.iter().filter(|(_, list)| !matches!(list.node, Node::Nil | Node::Cons(..))).peekable();
        if unready.peek().is_some() {
            return unready.find_map(|(k, list)| self.child_steps(whole, 1 + k, list));
        }
        // "When all are nil or cons: any nil gives nil."
        if masked.iter().any(|(_, list)| matches!(list.node, Node::Nil)) {
            return Some(quiet("43 zip to nil", tree(whole.ty, Node::Nil)));
        }
        // "Otherwise a cons of the inner function on the heads and the same zip on the tails."
        let head_type = self.types.row(inner.ty).result;
        Some(zip_cons(whole, zip, mask, inner, arguments, head_type))
    }

    /// "Fix of a function: the function of the remaining arguments, the first name replaced in its body by the fix
    /// term." Rule 40.
    pub(crate) fn fix(&self, whole: &Tree, function: &Tree, put: &Tree) -> Option<Step> {
        let Node::Native(body) = &function.node else {
            return None;
        };
        let first = self.types.row(function.ty).parts().first()?.name;
        let body = put_for_names(body, &[(first, put.clone())], self.types, self.bend);
        Some(quiet("40 fix", tree(whole.ty, Node::Native(body))))
    }
}

/// A step that sends nothing.
pub(crate) fn quiet(rule: &'static str, next: Tree) -> Step {
    Step { rule, next, call: None }
}

/// "A cons of the inner function on the heads and the same zip on the tails, other arguments in both." Rule 44.
pub(crate) fn zip_cons(whole: &Tree, zip: &Tree, mask: u8, inner: &Tree, arguments: &[Tree], head_type: u16) -> Step {
    let part = |of_cons: fn(&Tree, &Tree) -> Tree| -> Vec<Tree> {
        let pick = |(k, argument): (usize, &Tree)| match &argument.node {
            Node::Cons(head, tail) if mask >> k & 1 == 1 => of_cons(head, tail),
            _ => argument.clone(),
        };
        arguments.iter().enumerate().map(pick).collect()
    };
    let heads = part(|head, _| head.clone());
    let tails = part(|_, tail| tail.clone());
    let head = tree(head_type, Node::Apply(inner.clone(), heads));
    let tail = tree(whole.ty, Node::Apply(zip.clone(), tails));
    quiet("44 zip to cons", tree(whole.ty, Node::Cons(head, tail)))
}

/// "List project of a cons gives a cons of the projected head and the list-projected tail." Rule 47.
pub(crate) fn project_cons(whole: &Tree, place: u8, head: &Tree, tail: &Tree, element: u16) -> Step {
    let head = tree(element, Node::Project(place, head.clone()));
    let tail = tree(whole.ty, Node::ListProject(place, tail.clone()));
    quiet("47 list project of cons", tree(whole.ty, Node::Cons(head, tail)))
}
