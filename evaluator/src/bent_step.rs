//! What bent copies of the evaluator do at a step instead of the rules; the true evaluator makes no detour.

use crate::fault::Fault;
use crate::step::{is_value, project_cons, quiet, zip_cons, Step, Stepper};
use crate::term::{tree, Node, Tree};

impl Stepper<'_> {
    /// What the fault makes of this place: nothing, or a step (or none) in place of the rules' own.
    pub(crate) fn detour(&self, term: &Tree) -> Option<Option<Step>> {
        if self.sends_barred && would_send(term) {
            return Some(None);
        }
        match (self.bend.fault()?, &term.node) {
            (Fault::LetEvaluatesBound, Node::Let(_, bound, _)) => self.child_steps(term, 0, bound).map(Some),
            (Fault::ConsTailFirst, Node::Cons(head, tail)) => {
                Some(self.child_steps(term, 1, tail).or_else(|| self.child_steps(term, 0, head)))
            }
            (Fault::FixPutsTheFunction, Node::Fix(function)) => Some(self.fix(term, function, function)),
            (Fault::IfEntersBranch, Node::If(condition, then, _)) => match condition.node {
                Node::True | Node::False => None,
                _ => Some(self.child_steps(term, 0, condition).or_else(|| self.child_steps(term, 1, then))),
            },
            (fault, Node::Isnil(list)) => self.isnil_detour(fault, term, list),
            (fault, Node::Project(place, tuple)) => self.project_detour(fault, term, *place, tuple),
            (fault, Node::ListProject(place, list)) => list_project_detour(fault, term, *place, list),
            (fault, Node::Apply(function, arguments)) => match &function.node {
                Node::Foreign(tool) => self.foreign_detour(fault, term, function, *tool, arguments),
                Node::Zip(mask, inner) => self.zip_detour(fault, term, function, *mask, inner, arguments),
                _ => None,
            },
            _ => None,
        }
    }

    fn isnil_detour(&self, fault: Fault, term: &Tree, list: &Tree) -> Option<Option<Step>> {
        match (fault, &list.node) {
            (Fault::IsnilEntersCons, Node::Cons(..)) => self.child_steps(term, 0, list).map(Some),
            (Fault::IsnilStatesList, Node::Nil) => Some(Some(quiet("bent", tree(list.ty, Node::True)))),
            _ => None,
        }
    }

    fn project_detour(&self, fault: Fault, term: &Tree, place: u8, tuple: &Tree) -> Option<Option<Step>> {
        match (fault, &tuple.node) {
            (Fault::ProjectEntersTuple, Node::Tuple(_)) => self.child_steps(term, 0, tuple).map(Some),
            (Fault::ProjectPlaceFromZero, Node::Tuple(elements)) => {
                Some(Some(quiet("bent", elements[usize::from(place) % elements.len()].clone())))
            }
            _ => None,
        }
    }

    fn foreign_detour(
        &self,
        fault: Fault,
        term: &Tree,
        function: &Tree,
        tool: u32,
        arguments: &[Tree],
    ) -> Option<Option<Step>> {
        let all_values = arguments.iter().all(|argument| is_value(argument));
        let outer_value =
            |argument: &Tree| is_value(argument) || matches!(argument.node, Node::Cons(..) | Node::Tuple(_));
        match fault {
            Fault::OuterValuesSent if arguments.iter().all(outer_value) => {
                Some(Some(self.send(term, tool, arguments, term.ty)))
            }
            Fault::FutureStatesFunction if all_values => Some(Some(self.send(term, tool, arguments, function.ty))),
            Fault::ArgumentsFromTheRight if !all_values => {
                let mut from_the_right = arguments.iter().enumerate().rev();
                Some(from_the_right.find_map(|(k, argument)| self.child_steps(term, 1 + k, argument)))
            }
            _ => None,
        }
    }

    fn zip_detour(
        &self,
        fault: Fault,
        term: &Tree,
        zip: &Tree,
        mask: u8,
        inner: &Tree,
        arguments: &[Tree],
    ) -> Option<Option<Step>> {
        let masked = |k: usize| mask >> k & 1 == 1;
        let is_ready = |argument: &Tree| matches!(argument.node, Node::Nil | Node::Cons(..));
        let any_nil = arguments.iter().enumerate().any(|(k, argument)| masked(k) && argument.node == Node::Nil);
        let mut unready = arguments.iter().enumerate().filter(|(k, argument)| masked(*k) && !is_ready(argument));
        match fault {
            Fault::ZipEntersUnmasked => {
                let mut unmasked = arguments.iter().enumerate().filter(|(k, _)| !masked(*k));
                unmasked.find_map(|(k, argument)| self.child_steps(term, 1 + k, argument)).map(Some)
            }
            Fault::ZipNilAtOnce if any_nil => Some(Some(quiet("bent", tree(term.ty, Node::Nil)))),
            Fault::ZipTriesFirstOnly => unready.next().map(|(k, argument)| self.child_steps(term, 1 + k, argument)),
            Fault::ZipHeadStatesList if unready.next().is_none() && !any_nil => {
                Some(Some(zip_cons(term, zip, mask, inner, arguments, term.ty)))
            }
            _ => None,
        }
    }
}

fn list_project_detour(fault: Fault, term: &Tree, place: u8, list: &Tree) -> Option<Option<Step>> {
    match (fault, &list.node) {
        (Fault::ListProjectKeepsNilType, Node::Nil) => Some(Some(quiet("bent", tree(list.ty, Node::Nil)))),
        (Fault::ProjectedHeadKeepsType, Node::Cons(head, tail)) => {
            Some(Some(project_cons(term, place, head, tail, head.ty)))
        }
        _ => None,
    }
}

/// Whether the term is a foreign application of values.
fn would_send(term: &Tree) -> bool {
    match &term.node {
        Node::Apply(function, arguments) => {
            matches!(function.node, Node::Foreign(_)) && arguments.iter().all(|argument| is_value(argument))
        }
        _ => false,
    }
}
