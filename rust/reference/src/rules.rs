//! Rules: what they must be (ground 15), matching, and transcribing (grounds 17 and 18).

use crate::tree::{Name, Tree};
use crate::Ground;
use std::collections::HashMap;

/// What a variable takes: a tree, or a list under each ellipsis.
#[derive(Clone, Debug)]
pub enum Taken {
    One(Tree),
    Many(Vec<Taken>),
}

/// What an ellipsis is: `...` by its number alone, a name of the author's choice by sameness, and inside an escape nothing.
#[derive(Clone, Debug)]
pub enum Ellipsis {
    Default,
    Chosen(Name),
    Escaped,
}

impl Ellipsis {
    fn is(&self, x: &Name) -> bool {
        match self {
            Ellipsis::Default => x.is_ellipsis(),
            Ellipsis::Chosen(chosen) => chosen.same(x),
            Ellipsis::Escaped => false,
        }
    }

    fn stands(&self, t: &Tree) -> bool {
        t.name().is_some_and(|x| self.is(x))
    }
}

/// A template as it is transcribed: a variable by its place, a list of elements, each with whether an ellipsis follows it, or what is
/// inserted as it stands.
#[derive(Clone, Debug)]
pub enum Template {
    Variable(usize),
    List(Vec<(Template, bool)>),
    Inserted(Tree),
}

#[derive(Clone, Debug)]
pub struct Rule {
    pub ellipsis: Ellipsis,
    pub literals: Vec<Name>,
    pub pattern: Vec<Tree>,
    pub template: Template,
    pub variables: Vec<(Name, usize)>,
}

/// The rules of a well-formed (syntax-rules ellipsis (literal ...) (pattern template) ...), its head already looked up. A name after the
/// head is the ellipsis.
pub fn parse(form: &Tree) -> Option<Vec<Rule>> {
    let (_, behind) = form.list()?.split_first()?;
    let (ellipsis, behind) = match behind {
        [Tree::Name(chosen), behind @ ..] if chosen.is_ordinary() => (Ellipsis::Chosen(chosen.clone()), behind),
        _ => (Ellipsis::Default, behind),
    };
    let (literals, rules) = behind.split_first()?;
    let literals: Vec<Name> = literals.list()?.iter().map(|t| t.name().cloned()).collect::<Option<_>>()?;
    let listed = literals.len() <= 8 && literals.iter().all(|x| !ellipsis.is(x) && !x.is_wildcard());
    if !listed || !(1..=16).contains(&rules.len()) {
        return None;
    }
    rules.iter().map(|rule| parse_rule(&ellipsis, &literals, rule)).collect()
}

fn parse_rule(ellipsis: &Ellipsis, literals: &[Name], rule: &Tree) -> Option<Rule> {
    let [pattern, template] = rule.list()? else { return None };
    let (first, pattern) = pattern.list()?.split_first()?;
    if ellipsis.is(first.name()?) {
        return None;
    }
    let mut variables = Vec::new();
    check_patterns(ellipsis, literals, pattern, 0, &mut variables)?;
    if variables.len() > 16 || variables.iter().any(|(_, depth)| *depth > 2) {
        return None;
    }
    for (i, (x, _)) in variables.iter().enumerate() {
        if variables[..i].iter().any(|(y, _)| x.same(y)) {
            return None;
        }
    }
    let template = parse_template(&variables, ellipsis, template, 0)?;
    Some(Rule { ellipsis: ellipsis.clone(), literals: literals.to_vec(), pattern: pattern.to_vec(), template, variables })
}

/// Elements of a pattern list, one ellipsis among them at most, and after an element.
fn check_patterns(
    ellipsis: &Ellipsis, literals: &[Name], list: &[Tree], depth: usize, variables: &mut Vec<(Name, usize)>,
) -> Option<()> {
    let ellipses: Vec<usize> = (0..list.len()).filter(|&i| ellipsis.stands(&list[i])).collect();
    if ellipses.len() > 1 || ellipses == [0] {
        return None;
    }
    for (i, t) in list.iter().enumerate() {
        let depth = depth + usize::from(ellipses == [i + 1]);
        match t {
            Tree::Name(x) if ellipsis.is(x) || x.is_wildcard() || literals.iter().any(|l| l.same(x)) => {}
            Tree::Name(x) => variables.push((x.clone(), depth)),
            Tree::List(inner) => check_patterns(ellipsis, literals, inner, depth, variables)?,
            _ => {}
        }
    }
    Some(())
}

fn parse_template(variables: &[(Name, usize)], ellipsis: &Ellipsis, t: &Tree, depth: usize) -> Option<Template> {
    match t {
        Tree::Name(x) if ellipsis.is(x) => None,
        Tree::Name(x) => match variables.iter().position(|(v, _)| v.same(x)) {
            Some(k) => (variables[k].1 <= depth).then_some(Template::Variable(k)),
            None => Some(Template::Inserted(t.clone())),
        },
        Tree::List(list) => match &list[..] {
            [first, escaped] if ellipsis.stands(first) => parse_template(variables, &Ellipsis::Escaped, escaped, depth),
            [first, ..] if ellipsis.stands(first) => None,
            list => parse_elements(variables, ellipsis, list, depth).map(Template::List),
        },
        _ => Some(Template::Inserted(t.clone())),
    }
}

fn parse_elements(variables: &[(Name, usize)], ellipsis: &Ellipsis, mut list: &[Tree], depth: usize) -> Option<Vec<(Template, bool)>> {
    let mut elements = Vec::new();
    while let [t, behind @ ..] = list {
        let repeated = behind.first().is_some_and(|t| ellipsis.stands(t));
        let element = parse_template(variables, ellipsis, t, depth + usize::from(repeated))?;
        if repeated && driving(variables, &element, 0).is_empty() {
            return None;
        }
        elements.push((element, repeated));
        list = &behind[usize::from(repeated)..];
    }
    Some(elements)
}

/// The variables that drive an ellipsis over an element, each with how many of its own ellipses lie outside that one. Of the ellipses
/// over a variable its own d are the innermost, and so many as `inside` lie between the two.
fn driving(variables: &[(Name, usize)], t: &Template, inside: usize) -> Vec<(usize, usize)> {
    match t {
        Template::Variable(k) => variables[*k].1.checked_sub(inside + 1).map(|outside| (*k, outside)).into_iter().collect(),
        Template::List(list) => list.iter().flat_map(|(t, repeated)| driving(variables, t, inside + usize::from(*repeated))).collect(),
        Template::Inserted(_) => Vec::new(),
    }
}

// ---- matching

impl Rule {
    /// What each variable takes, where the use's elements after its head fit. `agree` looks both names up.
    pub fn matches(&self, used: &[Tree], agree: &mut impl FnMut(&Name, &Name) -> bool) -> Option<Vec<Taken>> {
        let mut taken = Vec::new();
        self.match_list(&self.pattern, used, agree, &mut taken).then_some(taken)
    }

    /// An ellipsis takes all but as many as follow it; where there are fewer, nothing is compared.
    fn match_list(&self, list: &[Tree], used: &[Tree], agree: &mut impl FnMut(&Name, &Name) -> bool, taken: &mut Vec<Taken>) -> bool {
        let Some(dots) = list.iter().position(|t| self.ellipsis.stands(t)) else {
            return self.match_each(list, used, agree, taken) && used.len() == list.len();
        };
        let (before, p, behind) = (&list[..dots - 1], &list[dots - 1], &list[dots + 1..]);
        if !self.match_each(before, used, agree, taken) {
            return false;
        }
        let used = &used[before.len()..];
        let Some(many) = used.len().checked_sub(behind.len()) else {
            return false;
        };
        let (repeated, used) = used.split_at(many);
        let mut rows = Vec::new();
        for t in repeated {
            let mut row = Vec::new();
            if !self.match_one(p, t, agree, &mut row) {
                return false;
            }
            rows.push(row);
        }
        let mut held = Vec::new();
        check_patterns(&self.ellipsis, &self.literals, std::slice::from_ref(p), 0, &mut held).expect("a checked pattern");
        taken.extend((0..held.len()).map(|k| Taken::Many(rows.iter().map(|row| row[k].clone()).collect())));
        self.match_each(behind, used, agree, taken)
    }

    /// Patterns with one element each, from the left until the elements run out.
    fn match_each(&self, list: &[Tree], used: &[Tree], agree: &mut impl FnMut(&Name, &Name) -> bool, taken: &mut Vec<Taken>) -> bool {
        list.iter().zip(used).all(|(p, t)| self.match_one(p, t, agree, taken)) && list.len() <= used.len()
    }

    fn match_one(&self, p: &Tree, t: &Tree, agree: &mut impl FnMut(&Name, &Name) -> bool, taken: &mut Vec<Taken>) -> bool {
        match (p, t) {
            (Tree::Name(x), _) if x.is_wildcard() => true,
            (Tree::Name(x), _) if self.literals.iter().any(|l| l.same(x)) => t.name().is_some_and(|y| agree(x, y)),
            (Tree::Name(_), _) => {
                taken.push(Taken::One(t.clone()));
                true
            }
            (Tree::Number(a), Tree::Number(b)) => a == b,
            (Tree::Boolean(a), Tree::Boolean(b)) => a == b,
            (Tree::List(list), Tree::List(used)) => self.match_list(list, used, agree, taken),
            _ => false,
        }
    }
}

// ---- transcribing

impl Taken {
    /// What is taken at these indices, the outermost first.
    fn at(&self, indices: &[usize]) -> &Taken {
        indices.iter().fold(self, |taken, &i| &taken.list()[i])
    }

    fn list(&self) -> &[Taken] {
        match self {
            Taken::Many(list) => list,
            Taken::One(_) => unreachable!("no variable has more indices than ellipses"),
        }
    }
}

/// The innermost indices.
fn innermost(indices: &[usize], count: usize) -> &[usize] {
    &indices[indices.len() - count..]
}

impl Rule {
    /// The result and its items, of which there may be so many: ground 17, then ground 18.
    pub fn result(&self, taken: &[Taken], most: u32) -> Result<(Tree, u32), Ground> {
        if !self.lengths_agree(taken, &self.template, &[], &mut HashMap::new()) {
            return Err(17);
        }
        let mut left = u64::from(most);
        let result = self.transcribe(taken, &self.template, &[], &mut left).ok_or(18u32)?;
        Ok((result, most - left as u32))
    }

    /// How many copies of an element are made at these indices; none where driving lists differ in length.
    fn copies(&self, taken: &[Taken], element: &Template, indices: &[usize]) -> Option<usize> {
        let drivers = driving(&self.variables, element, 0);
        let mut counts = drivers.iter().map(|&(k, outside)| taken[k].at(innermost(indices, outside)).list().len());
        let count = counts.next()?;
        counts.all(|other| other == count).then_some(count)
    }

    /// Whether driving lists are of one length wherever copies are made. A variable has at most two ellipses, so what is compared goes
    /// by the index next outside alone, and an element is looked into once for each: `seen` has how many of them it was.
    fn lengths_agree(&self, taken: &[Taken], t: &Template, next: &[usize], seen: &mut HashMap<*const Template, usize>) -> bool {
        let Template::List(list) = t else { return true };
        list.iter().all(|(t, repeated)| {
            if !repeated {
                return self.lengths_agree(taken, t, next, seen);
            }
            let Some(count) = self.copies(taken, t, next) else { return false };
            let before = seen.get(&(t as *const Template)).copied().unwrap_or(0);
            seen.insert(t, before.max(count));
            (before..count).all(|i| self.lengths_agree(taken, t, &[i], seen))
        })
    }

    /// The result at these indices, where driving lists are of one length; none where no items are left to pay for it.
    fn transcribe(&self, taken: &[Taken], t: &Template, indices: &[usize], left: &mut u64) -> Option<Tree> {
        let tree = match t {
            Template::Variable(k) => match taken[*k].at(innermost(indices, self.variables[*k].1)) {
                Taken::One(tree) => tree,
                Taken::Many(_) => unreachable!("a checked template has each variable under its ellipses"),
            },
            Template::Inserted(tree) => tree,
            Template::List(list) => {
                let mut out = Vec::new();
                pay(left, 1)?;
                for (t, repeated) in list {
                    let copies = if *repeated { self.copies(taken, t, indices).expect("lengths are compared before") } else { 1 };
                    for i in 0..copies {
                        let inner = if *repeated { [indices, &[i]].concat() } else { indices.to_vec() };
                        pay(left, 1)?;
                        out.push(self.transcribe(taken, t, &inner, left)?);
                    }
                }
                return Some(Tree::List(out));
            }
        };
        pay(left, tree.size())?;
        Some(tree.clone())
    }
}

fn pay(left: &mut u64, items: u64) -> Option<()> {
    *left = left.checked_sub(items)?;
    Some(())
}
