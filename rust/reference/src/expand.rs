//! Forms and the run (grounds 7 to 18), with what demand 3 speaks of.

use crate::core::Term;
use crate::rules::{self, Rule};
use crate::table;
use crate::text::Datum;
use crate::tree::{Binding, Name, Tree};
use crate::Ground;
use std::rc::Rc;

/// What a run shows: lookups, quoted names, let-syntax and letrec-syntax forms reached (by their head), bindings with their own names.
#[derive(Clone, Debug, PartialEq)]
pub enum Event {
    Looked(Name),
    Quoted(Name),
    Reached(Name),
    Binds(Binding, Name),
}

#[derive(Clone, Debug, PartialEq)]
pub struct Run {
    pub outcome: Result<(), Ground>,
    pub steps: u32,
    pub sum: u32,
    pub core: Vec<u32>,
    pub events: Vec<Event>,
}

enum Found {
    Bound(Binding),
    Form(u32),
    Operation(u32),
    Nothing,
}

struct Expander {
    operations: Vec<u32>,
    fuel: u32,
    steps: u32,
    sum: u32,
    variables: u32,
    macros: Vec<Rc<Vec<Rule>>>,
    events: Vec<Event>,
}

type Answer = Result<Term, Ground>;

fn require(test: bool, ground: Ground) -> Result<(), Ground> {
    if test {
        Ok(())
    } else {
        Err(ground)
    }
}

/// Words of the shortest work and core tables that pass ground 9.
pub fn table_words(items: usize, fuel: u32) -> (usize, usize) {
    let need = items + fuel as usize;
    (24 * need, 3 * need)
}

/// What the definition gives for one item table, fuel and lengths of lent tables.
pub fn run(words: &[u32], fuel: u32, work: usize, core: usize) -> Run {
    let refused = |ground| Run { outcome: Err(ground), steps: 0, sum: 0, core: Vec::new(), events: Vec::new() };
    let Some((operations, expression)) = table::elements(words) else { return refused(7) };
    if fuel > 8_192 {
        return refused(8);
    }
    let need = table_words(words.len() / 3, fuel);
    if work < need.0 || core < need.1 {
        return refused(9);
    }
    let Some(operations) = operation_numbers(&operations) else { return refused(10) };
    let mut e = Expander { operations, fuel, steps: 0, sum: 0, variables: 0, macros: Vec::new(), events: Vec::new() };
    let answer = e.expression(expression);
    let core = answer.as_ref().map(Term::words).unwrap_or_default();
    Run { outcome: answer.map(|_| ()), steps: e.steps, sum: e.sum, core, events: e.events }
}

/// The operations' name numbers; none is ground 10.
pub fn operation_numbers(list: &Tree) -> Option<Vec<u32>> {
    let mut numbers: Vec<u32> = Vec::new();
    for t in list.list()? {
        let number = t.name()?.number;
        if number < 8 || numbers.contains(&number) {
            return None;
        }
        numbers.push(number);
    }
    (numbers.len() <= 256).then_some(numbers)
}

/// The whole call over lent tables: ground, steps, sum, length.
pub fn expand_call(words: &[u32], fuel: u32, work: &mut [u32], core: &mut [u32]) -> (Ground, u32, u32, u32) {
    let run = run(words, fuel, work.len(), core.len());
    match run.outcome {
        Err(ground) if ground <= 10 => return (ground, 0, 0, 0),
        _ => {}
    }
    work.fill(0);
    core.fill(0);
    core[..run.core.len()].copy_from_slice(&run.core);
    (run.outcome.err().unwrap_or(0), run.steps, run.sum, run.core.len() as u32)
}

impl Expander {
    fn lookup(&mut self, x: &Name) -> Found {
        self.events.push(Event::Looked(x.clone()));
        if let Some(binding) = x.binding {
            return Found::Bound(binding);
        }
        if x.number < 8 {
            return Found::Form(x.number);
        }
        match self.operations.iter().position(|&n| n == x.number) {
            Some(place) => Found::Operation(place as u32),
            None => Found::Nothing,
        }
    }

    fn expression(&mut self, t: Tree) -> Answer {
        match t {
            Tree::Number(n) => Ok(Term::Number(n)),
            Tree::Boolean(b) => Ok(Term::Boolean(b)),
            Tree::Name(x) => match self.lookup(&x) {
                Found::Bound(Binding::Variable(n)) => Ok(Term::Variable(n)),
                Found::Operation(place) => Ok(Term::Operation(place)),
                Found::Bound(Binding::Macro(_)) | Found::Form(_) => Err(12),
                Found::Nothing => Err(11),
            },
            Tree::List(list) => self.list(list),
        }
    }

    fn list(&mut self, list: Vec<Tree>) -> Answer {
        let Some(head) = list.first() else { return Err(13) };
        let head = match head {
            Tree::Name(x) => {
                let x = x.clone();
                match self.lookup(&x) {
                    Found::Bound(Binding::Variable(n)) => Term::Variable(n),
                    Found::Operation(place) => Term::Operation(place),
                    Found::Bound(Binding::Macro(n)) => return self.step(n, list),
                    Found::Form(0) => return self.quote(&list),
                    Found::Form(1) => return self.conditional(list),
                    Found::Form(2) => return self.lambda(&list),
                    Found::Form(3) => return self.let_syntax(&x, &list, false),
                    Found::Form(4) => return self.let_syntax(&x, &list, true),
                    Found::Form(_) => return Err(12),
                    Found::Nothing => return Err(11),
                }
            }
            other => self.expression(other.clone())?,
        };
        let operands = list.into_iter().skip(1).map(|t| self.expression(t)).collect::<Result<_, _>>()?;
        Ok(Term::Application(Box::new(head), operands))
    }

    fn quote(&mut self, list: &[Tree]) -> Answer {
        let [_, d] = list else { return Err(13) };
        self.events.extend(d.names().into_iter().cloned().map(Event::Quoted));
        Ok(match datum(d) {
            Datum::Number(n) => Term::Number(n),
            Datum::Boolean(b) => Term::Boolean(b),
            d => Term::Quoted(d),
        })
    }

    fn conditional(&mut self, list: Vec<Tree>) -> Answer {
        require(list.len() == 4, 13)?;
        let mut parts = list.into_iter().skip(1).map(|t| self.expression(t)).collect::<Result<Vec<_>, _>>()?;
        let (c, b, a) = (parts.pop().unwrap(), parts.pop().unwrap(), parts.pop().unwrap());
        Ok(Term::If(Box::new([a, b, c])))
    }

    fn lambda(&mut self, list: &[Tree]) -> Answer {
        let [_, formals, body] = list else { return Err(13) };
        let formals = bound_names(formals.list().ok_or(13u32)?)?;
        require(formals.len() <= 8, 13)?;
        distinct(&formals)?;
        let first = self.variables;
        self.variables += formals.len() as u32;
        let names = formals.iter().map(|x| x.number).collect();
        let bound: Vec<_> = formals.into_iter().zip(first..).map(|(x, n)| (x, Binding::Variable(n))).collect();
        self.events.extend(bound.iter().map(|(x, b)| Event::Binds(*b, x.clone())));
        let body = self.expression(body.clone().bind(&bound))?;
        Ok(Term::Lambda(first, names, Box::new(body)))
    }

    fn let_syntax(&mut self, head: &Name, list: &[Tree], recursive: bool) -> Answer {
        self.events.push(Event::Reached(head.clone()));
        let [_, entries, body] = list else { return Err(13) };
        let entries = entries.list().ok_or(13u32)?;
        require((1..=16).contains(&entries.len()), 13)?;
        let pairs = entries.iter().map(|t| match t.list() {
            Some([name, rules]) => Ok((name.clone(), rules.clone())),
            _ => Err(13u32),
        });
        let (names, forms): (Vec<Tree>, Vec<Tree>) = pairs.collect::<Result<Vec<_>, _>>()?.into_iter().unzip();
        let names = bound_names(&names)?;
        distinct(&names)?;
        let bound: Vec<_> = names.into_iter().zip(self.macros.len()..).map(|(x, n)| (x, Binding::Macro(n))).collect();
        self.events.extend(bound.iter().map(|(x, b)| Event::Binds(*b, x.clone())));
        let mut read = Vec::new();
        for form in forms {
            let form = if recursive { form.bind(&bound) } else { form };
            read.push(Rc::new(self.rules(&form).ok_or(15u32)?));
        }
        self.macros.extend(read);
        self.expression(body.clone().bind(&bound))
    }

    fn rules(&mut self, form: &Tree) -> Option<Vec<Rule>> {
        let head = form.list()?.first()?.name()?.clone();
        match self.lookup(&head) {
            Found::Form(5) => rules::parse(form),
            _ => None,
        }
    }

    /// Macro step m marks the use with m, transcribes, then marks the result with m.
    fn step(&mut self, n: usize, list: Vec<Tree>) -> Answer {
        let m = self.steps + 1;
        let used: Vec<Tree> = list.into_iter().skip(1).map(|t| t.mark(m)).collect();
        let rules = self.macros[n].clone();
        let events = &mut self.events;
        let mut agree = |x: &Name, y: &Name| {
            events.extend([Event::Looked(x.clone()), Event::Looked(y.clone())]);
            match (x.binding, y.binding) {
                (None, None) => x.number == y.number,
                (a, b) => a == b,
            }
        };
        let (rule, taken) = rules.iter().find_map(|r| Some((r, r.matches(&used, &mut agree)?))).ok_or(16u32)?;
        let (result, cost) = rule.result(&taken, self.fuel - self.sum)?;
        self.steps = m;
        self.sum += cost;
        self.expression(result.mark(m).produced())
    }
}

fn bound_names(trees: &[Tree]) -> Result<Vec<Name>, Ground> {
    trees.iter().map(|t| t.name().filter(|x| x.is_ordinary()).cloned().ok_or(13)).collect()
}

fn distinct(names: &[Name]) -> Result<(), Ground> {
    require((0..names.len()).all(|i| !names[..i].iter().any(|x| x.same(&names[i]))), 14)
}

fn datum(t: &Tree) -> Datum {
    match t {
        Tree::Number(n) => Datum::Number(*n),
        Tree::Boolean(b) => Datum::Boolean(*b),
        Tree::Name(x) => Datum::Name(x.number),
        Tree::List(list) => Datum::List(list.iter().map(datum).collect()),
    }
}
