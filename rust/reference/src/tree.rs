//! Trees of names with marks and bindings, carried through at once.

use crate::text::Number;
use std::collections::BTreeSet;

#[derive(Clone, Copy, Debug, PartialEq, Eq, PartialOrd, Ord, Hash)]
pub enum Binding {
    Variable(u32),
    Macro(usize),
}

/// Number, marks and binding make sameness; the item it stems from and whether it has stood in a result are for demand 3.
#[derive(Clone, Debug, PartialEq)]
pub struct Name {
    pub number: u32,
    pub marks: BTreeSet<u32>,
    pub binding: Option<Binding>,
    pub item: u32,
    pub produced: bool,
}

impl Name {
    pub fn same(&self, other: &Name) -> bool {
        self.number == other.number && self.marks == other.marks && self.binding == other.binding
    }

    pub fn is_ellipsis(&self) -> bool {
        self.number == 6
    }

    pub fn is_wildcard(&self) -> bool {
        self.number == 7
    }

    /// May be bound, or listed as a literal.
    pub fn is_ordinary(&self) -> bool {
        !self.is_ellipsis() && !self.is_wildcard()
    }
}

#[derive(Clone, Debug)]
pub enum Tree {
    Number(Number),
    Boolean(bool),
    Name(Name),
    List(Vec<Tree>),
}

impl Tree {
    pub fn name(&self) -> Option<&Name> {
        match self {
            Tree::Name(x) => Some(x),
            _ => None,
        }
    }

    pub fn list(&self) -> Option<&[Tree]> {
        match self {
            Tree::List(list) => Some(list),
            _ => None,
        }
    }

    /// Items: a list of n elements has n pairs and one empty list.
    pub fn size(&self) -> u64 {
        match self {
            Tree::List(list) => 1 + list.iter().map(|t| 1 + t.size()).sum::<u64>(),
            _ => 1,
        }
    }

    pub fn for_names(&mut self, change: &mut impl FnMut(&mut Name)) {
        match self {
            Tree::Name(x) => change(x),
            Tree::List(list) => list.iter_mut().for_each(|t| t.for_names(change)),
            _ => {}
        }
    }

    pub fn names(&self) -> Vec<&Name> {
        match self {
            Tree::Name(x) => vec![x],
            Tree::List(list) => list.iter().flat_map(Tree::names).collect(),
            _ => Vec::new(),
        }
    }

    /// A mark met twice cancels.
    pub fn mark(mut self, m: u32) -> Tree {
        self.for_names(&mut |x| {
            if !x.marks.remove(&m) {
                x.marks.insert(m);
            }
        });
        self
    }

    /// All names of one form at once.
    pub fn bind(mut self, bound: &[(Name, Binding)]) -> Tree {
        self.for_names(&mut |x| {
            if let Some((_, binding)) = bound.iter().find(|(i, _)| i.same(x)) {
                x.binding = Some(*binding);
            }
        });
        self
    }

    pub fn produced(mut self) -> Tree {
        self.for_names(&mut |x| x.produced = true);
        self
    }
}
