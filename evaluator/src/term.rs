//! Terms as owned trees: from rows, to rows, counting rows, and putting terms for names and for futures.

use std::rc::Rc;

use crate::fault::{Bend, Fault};
use crate::rows::{kind, Row};
use crate::types::Types;

/// A term with the type that its row states. Equal subterms may be shared; nothing ever changes in place.
#[derive(Debug, PartialEq)]
pub struct Term {
    pub ty: u16,
    pub node: Node,
}

pub type Tree = Rc<Term>;

/// The nineteen kinds of document 01, "Term row".
#[derive(Debug, PartialEq)]
pub enum Node {
    Str(u32),
    File(u32),
    True,
    False,
    Variable(u16),
    Native(Tree),
    Foreign(u32),
    Apply(Tree, Vec<Tree>),
    Future(u32),
    If(Tree, Tree, Tree),
    Fix(Tree),
    Nil,
    Cons(Tree, Tree),
    Isnil(Tree),
    Zip(u8, Tree),
    Tuple(Vec<Tree>),
    Project(u8, Tree),
    ListProject(u8, Tree),
    Let(u16, Tree, Tree),
}

pub fn tree(ty: u16, node: Node) -> Tree {
    Rc::new(Term { ty, node })
}

/// Builds the tree of rows that have passed refusal 7.
pub fn from_rows(rows: &[Row]) -> Tree {
    take(&mut rows.iter())
}

fn take(rows: &mut std::slice::Iter<Row>) -> Tree {
    let row = rows.next().expect("the rows make one tree");
    let n = usize::from(row.n);
    let node = match row.kind {
        kind::STR => Node::Str(row.word),
        kind::FILE => Node::File(row.word),
        kind::TRUE => Node::True,
        kind::FALSE => Node::False,
        kind::VARIABLE => Node::Variable(row.word as u16),
        kind::NATIVE => Node::Native(take(rows)),
        kind::FOREIGN => Node::Foreign(row.word),
        kind::APPLY => Node::Apply(take(rows), (0..n).map(|_| take(rows)).collect()),
        kind::FUTURE => Node::Future(row.word),
        kind::IF => Node::If(take(rows), take(rows), take(rows)),
        kind::FIX => Node::Fix(take(rows)),
        kind::NIL => Node::Nil,
        kind::CONS => Node::Cons(take(rows), take(rows)),
        kind::ISNIL => Node::Isnil(take(rows)),
        kind::ZIP => Node::Zip(row.n, take(rows)),
        kind::TUPLE => Node::Tuple((0..n).map(|_| take(rows)).collect()),
        kind::PROJECT => Node::Project(row.n, take(rows)),
        kind::LIST_PROJECT => Node::ListProject(row.n, take(rows)),
        kind::LET => Node::Let(row.word as u16, take(rows), take(rows)),
        other => unreachable!("kind {other} has passed refusal 7"),
    };
    tree(row.ty, node)
}

/// Appends the term's rows, "parent first, children in order".
pub fn to_rows(term: &Term, rows: &mut Vec<Row>) {
    let (kind, n, word) = head(&term.node);
    rows.push(Row { kind, n, ty: term.ty, word });
    for child in children(&term.node) {
        to_rows(child, rows);
    }
}

/// Counts the term's rows, but gives up counting once past the limit.
pub fn count_rows(term: &Term, limit: usize) -> usize {
    let mut count = 1;
    for child in children(&term.node) {
        if count > limit {
            break;
        }
        count += count_rows(child, limit - count);
    }
    count
}

/// A row's kind, n and word.
fn head(node: &Node) -> (u8, u8, u32) {
    match node {
        Node::Str(word) => (kind::STR, 0, *word),
        Node::File(word) => (kind::FILE, 0, *word),
        Node::True => (kind::TRUE, 0, 0),
        Node::False => (kind::FALSE, 0, 0),
        Node::Variable(name) => (kind::VARIABLE, 0, u32::from(*name)),
        Node::Native(_) => (kind::NATIVE, 0, 0),
        Node::Foreign(tool) => (kind::FOREIGN, 0, *tool),
        Node::Apply(_, arguments) => (kind::APPLY, arguments.len() as u8, 0),
        Node::Future(number) => (kind::FUTURE, 0, *number),
        Node::If(..) => (kind::IF, 0, 0),
        Node::Fix(_) => (kind::FIX, 0, 0),
        Node::Nil => (kind::NIL, 0, 0),
        Node::Cons(..) => (kind::CONS, 0, 0),
        Node::Isnil(_) => (kind::ISNIL, 0, 0),
        Node::Zip(mask, _) => (kind::ZIP, *mask, 0),
        Node::Tuple(elements) => (kind::TUPLE, elements.len() as u8, 0),
        Node::Project(place, _) => (kind::PROJECT, *place, 0),
        Node::ListProject(place, _) => (kind::LIST_PROJECT, *place, 0),
        Node::Let(name, ..) => (kind::LET, 0, u32::from(*name)),
    }
}

/// A term's children, in row order.
fn children(node: &Node) -> impl Iterator<Item = &Tree> {
    (0..).map_while(move |which| child(node, which))
}

fn child(node: &Node, which: usize) -> Option<&Tree> {
    match node {
        Node::Str(_) | Node::File(_) | Node::True | Node::False | Node::Nil => None,
        Node::Variable(_) | Node::Foreign(_) | Node::Future(_) => None,
        Node::Native(one) | Node::Fix(one) | Node::Isnil(one) => (which == 0).then_some(one),
        Node::Zip(_, one) | Node::Project(_, one) | Node::ListProject(_, one) => (which == 0).then_some(one),
        Node::Cons(first, second) | Node::Let(_, first, second) => [first, second].get(which).copied(),
        Node::If(condition, then, other) => [condition, then, other].get(which).copied(),
        Node::Apply(function, arguments) => match which {
            0 => Some(function),
            _ => arguments.get(which - 1),
        },
        Node::Tuple(elements) => elements.get(which),
    }
}

/// The same row over other children, each made from the old one and its place among them.
pub fn rebuilt(term: &Term, mut make: impl FnMut(usize, &Tree) -> Tree) -> Tree {
    let node = match &term.node {
        Node::Str(word) => Node::Str(*word),
        Node::File(word) => Node::File(*word),
        Node::True => Node::True,
        Node::False => Node::False,
        Node::Variable(name) => Node::Variable(*name),
        Node::Native(body) => Node::Native(make(0, body)),
        Node::Foreign(tool) => Node::Foreign(*tool),
        Node::Apply(function, arguments) => {
            let function = make(0, function);
            Node::Apply(function, arguments.iter().enumerate().map(|(k, argument)| make(1 + k, argument)).collect())
        }
        Node::Future(number) => Node::Future(*number),
        Node::If(condition, then, other) => Node::If(make(0, condition), make(1, then), make(2, other)),
        Node::Fix(function) => Node::Fix(make(0, function)),
        Node::Nil => Node::Nil,
        Node::Cons(head, tail) => Node::Cons(make(0, head), make(1, tail)),
        Node::Isnil(list) => Node::Isnil(make(0, list)),
        Node::Zip(mask, function) => Node::Zip(*mask, make(0, function)),
        Node::Tuple(elements) => {
            Node::Tuple(elements.iter().enumerate().map(|(k, element)| make(k, element)).collect())
        }
        Node::Project(place, tuple) => Node::Project(*place, make(0, tuple)),
        Node::ListProject(place, list) => Node::ListProject(*place, make(0, list)),
        Node::Let(name, bound, body) => Node::Let(*name, make(0, bound), make(1, body)),
    };
    tree(term.ty, node)
}

/// A name and the term that is put for it.
pub type Binding = (u16, Tree);

/// Puts terms for the free names, all at once. "A hidden name stays." The terms put are closed, since no step is made
/// below a binder, so none of their own names can be caught.
pub fn put_for_names(term: &Tree, bindings: &[Binding], types: &Types, bend: Bend) -> Tree {
    if bindings.is_empty() {
        return term.clone();
    }
    match &term.node {
        Node::Variable(name) => match bindings.iter().find(|(bound, _)| bound == name) {
            Some((_, put)) => put.clone(),
            None => term.clone(),
        },
        // A native function hides its type's names in its body.
        Node::Native(body) => {
            let hidden = |name: u16| types.row(term.ty).parts().iter().any(|part| part.name == name);
            let seen = visible(bindings, |name| hidden(name) && !bend.is(Fault::FunctionHidesNothing));
            tree(term.ty, Node::Native(put_for_names(body, &seen, types, bend)))
        }
        // Let hides its name in its body only.
        Node::Let(name, bound, body) => {
            let seen = visible(bindings, |other| other == *name && !bend.is(Fault::LetHidesNothing));
            let bound_sees = if bend.is(Fault::LetHidesInBound) { &seen[..] } else { bindings };
            let bound = put_for_names(bound, bound_sees, types, bend);
            tree(term.ty, Node::Let(*name, bound, put_for_names(body, &seen, types, bend)))
        }
        _ => rebuilt(term, |_, child| put_for_names(child, bindings, types, bend)),
    }
}

fn visible(bindings: &[Binding], hidden: impl Fn(u16) -> bool) -> Vec<Binding> {
    bindings.iter().filter(|(name, _)| !hidden(*name)).cloned().collect()
}

/// Replaces every future of a number, below binders too (reading 14).
pub fn put_for_future(term: &Tree, number: u32, answer: &Tree, bend: Bend) -> Tree {
    match &term.node {
        Node::Future(other) if *other == number => answer.clone(),
        Node::Native(_) if bend.is(Fault::ReplyStopsAtBinders) => term.clone(),
        Node::Let(..) if bend.is(Fault::ReplyStopsAtBinders) => term.clone(),
        _ => rebuilt(term, |_, child| put_for_future(child, number, answer, bend)),
    }
}

/// Whether any future stands in the term.
pub fn has_future(term: &Term) -> bool {
    matches!(term.node, Node::Future(_)) || children(&term.node).any(|child| has_future(child))
}

/// How many futures of a number stand in the term.
pub fn count_futures(term: &Term, number: u32) -> usize {
    let own = usize::from(term.node == Node::Future(number));
    own + children(&term.node).map(|child| count_futures(child, number)).sum::<usize>()
}
