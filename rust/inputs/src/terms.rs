//! Random core terms to be run, as words. Their parts are mostly of the kinds that are asked for, so that evaluation goes far; now and
//! then one is not.

use crate::Random;

/// What a part is to be: of a function, the kinds of its operands and of its result.
#[derive(Clone, PartialEq)]
enum Kind {
    Number,
    Truth,
    Datum,
    Function(Vec<Kind>, Box<Kind>),
}

/// The kind of a function that is given itself: no other part is asked for it, so that only the recursion uses such a variable.
fn recursive() -> Kind {
    Kind::Function(vec![Kind::Datum; 9], Box::new(Kind::Datum))
}

const VARIABLE: u32 = 0;
const OPERATION: u32 = 1;
const INTEGER: u32 = 2;
const BOOLEAN: u32 = 3;
const NAME: u32 = 4;
const LIST: u32 = 5;
const IF: u32 = 6;
const LAMBDA: u32 = 7;
const APPLICATION: u32 = 8;
const DECIMAL: u32 = 9;

const SUM: u32 = 0;
const DIFFERENCE: u32 = 1;
const LESS: u32 = 2;

/// Integers as words: small ones, and the ends of the range.
const INTEGERS: [u32; 10] = [0, 1, 2, 3, 80, 90, u32::MAX, 0x8000_0000, 0x7fff_ffff, 0x4000_0000];

pub struct Terms<'a> {
    random: &'a mut Random,
    words: Vec<u32>,
    /// How many variables there are so far, and which of them may stand here.
    variables: u32,
    scope: Vec<(u32, Kind)>,
    /// How much more may be made, so that terms stay small.
    left: i32,
}

impl Terms<'_> {
    /// The words of a term; one in fifty is long or deep.
    pub fn words(random: &mut Random) -> Vec<u32> {
        let left = [10, 40, 120][random.below(3)];
        let mut t = Terms { random, words: Vec::new(), variables: 0, scope: Vec::new(), left };
        if t.random.chance(2) {
            t.large();
        } else {
            let kind = t.kind();
            t.term(&kind);
        }
        t.words
    }

    fn put<const N: usize>(&mut self, words: [u32; N]) {
        self.words.extend(words);
    }

    fn kind(&mut self) -> Kind {
        match self.random.below(12) {
            0..=5 => Kind::Number,
            6 | 7 => Kind::Truth,
            8 | 9 => Kind::Datum,
            _ => self.function(),
        }
    }

    /// Of none to two operands, seldom eight.
    fn function(&mut self) -> Kind {
        let count = if self.random.chance(3) { 8 } else { self.random.below(3) };
        let operands = (0..count).map(|_| if self.random.chance(80) { Kind::Number } else { self.kind() }).collect();
        let result = if self.random.chance(60) { Kind::Number } else { self.kind() };
        Kind::Function(operands, Box::new(result))
    }

    fn term(&mut self, kind: &Kind) {
        self.left -= 1;
        if self.left < 0 {
            return self.leaf(kind);
        }
        match self.random.below(40) {
            0..=7 => self.leaf(kind),
            8..=13 => self.branches(kind),
            14..=19 => self.bound(kind),
            20..=25 => self.call(kind),
            26..=31 => self.arithmetic(kind),
            32 | 33 if *kind == Kind::Number => self.recursion(),
            34 if *kind == Kind::Number => self.chain(),
            35 if self.random.chance(20) => self.endless(),
            36 if self.random.chance(50) => self.wrong(),
            _ => self.returned(kind),
        }
    }

    /// A variable where there is one of the kind, else a constant, an operation or a lambda.
    fn leaf(&mut self, kind: &Kind) {
        let fitting: Vec<u32> = self.scope.iter().filter(|(_, k)| k == kind).map(|(n, _)| *n).collect();
        if !fitting.is_empty() && self.random.chance(75) {
            let n = fitting[self.random.below(fitting.len())];
            return self.put([VARIABLE, n]);
        }
        let two = [Kind::Number, Kind::Number];
        match kind {
            Kind::Number => self.integer(),
            Kind::Truth => {
                let b = self.random.below(2) as u32;
                self.put([BOOLEAN, b]);
            }
            Kind::Datum => self.datum(3),
            Kind::Function(operands, result) if operands[..] == two && **result == Kind::Number && self.random.chance(50) => {
                let place = self.random.below(2) as u32;
                self.put([OPERATION, place]);
            }
            Kind::Function(operands, result) if operands[..] == two && **result == Kind::Truth && self.random.chance(50) => {
                let place = 2 + self.random.below(2) as u32;
                self.put([OPERATION, place]);
            }
            Kind::Function(operands, result) => self.lambda(operands, |t| t.term(result)),
        }
    }

    fn integer(&mut self) {
        let small = self.random.below(5);
        let any = self.random.below(INTEGERS.len());
        let n = if self.random.chance(70) { INTEGERS[small] } else { INTEGERS[any] };
        self.put([INTEGER, n]);
    }

    /// A quoted name or list.
    fn datum(&mut self, depth: usize) {
        let name = self.random.below(1_024) as u32;
        if self.random.chance(40) {
            return self.put([NAME, name]);
        }
        let count = self.random.below(4);
        self.put([LIST, count as u32]);
        for _ in 0..count {
            match self.random.below(5) {
                0 => self.integer(),
                1 => self.put([BOOLEAN, 1]),
                2 => self.put([DECIMAL, 80, 2]),
                3 if depth > 0 => self.datum(depth - 1),
                _ => self.put([NAME, name]),
            }
        }
    }

    fn lambda(&mut self, formals: &[Kind], body: impl FnOnce(&mut Self)) {
        let (first, outside) = (self.variables, self.scope.len());
        self.put([LAMBDA, first, formals.len() as u32]);
        self.variables += formals.len() as u32;
        for kind in formals {
            let name = self.random.below(1_024) as u32;
            self.put([name]);
            let number = first + (self.scope.len() - outside) as u32;
            self.scope.push((number, kind.clone()));
        }
        body(self);
        self.scope.truncate(outside);
    }

    /// An if, whose test is of any kind.
    fn branches(&mut self, kind: &Kind) {
        let test = if self.random.chance(70) { Kind::Truth } else { self.kind() };
        self.put([IF]);
        self.term(&test);
        self.term(kind);
        self.term(kind);
    }

    /// `((lambda (x ...) body) operand ...)`.
    fn bound(&mut self, kind: &Kind) {
        let formals: Vec<Kind> = (0..1 + self.random.below(2)).map(|_| self.kind()).collect();
        self.put([APPLICATION, formals.len() as u32]);
        self.lambda(&formals, |t| t.term(kind));
        formals.iter().for_each(|kind| self.term(kind));
    }

    /// A variable's function applied, where one gives the kind; now and then to an operand too many.
    fn call(&mut self, kind: &Kind) {
        let gives = |(n, k): &(u32, Kind)| match k {
            Kind::Function(operands, result) if **result == *kind => Some((*n, operands.clone())),
            _ => None,
        };
        let fitting: Vec<(u32, Vec<Kind>)> = self.scope.iter().filter_map(gives).collect();
        if fitting.is_empty() {
            return self.returned(kind);
        }
        let (n, mut operands) = fitting[self.random.below(fitting.len())].clone();
        if self.random.chance(2) {
            operands.push(Kind::Number);
        }
        self.put([APPLICATION, operands.len() as u32, VARIABLE, n]);
        operands.iter().for_each(|kind| self.term(kind));
    }

    /// An application whose head is a part that gives a function: its closure mostly outlives the call that made it.
    fn returned(&mut self, kind: &Kind) {
        let operands: Vec<Kind> = (0..self.random.below(3)).map(|_| Kind::Number).collect();
        self.put([APPLICATION, operands.len() as u32]);
        self.term(&Kind::Function(operands.clone(), Box::new(kind.clone())));
        operands.iter().for_each(|kind| self.term(kind));
    }

    /// One of the four operations.
    fn arithmetic(&mut self, kind: &Kind) {
        let place = self.random.below(2) as u32;
        match kind {
            Kind::Number => self.put([APPLICATION, 2, OPERATION, place]),
            Kind::Truth => self.put([APPLICATION, 2, OPERATION, LESS + place]),
            _ => return self.leaf(kind),
        }
        self.term(&Kind::Number);
        self.term(&Kind::Number);
    }

    /// How often to recur: seldom deep.
    fn times(&mut self) -> u32 {
        let most = [1, 4, 30, 30, 300, 6_000][self.random.below(6)];
        self.random.below(most) as u32
    }

    /// `((lambda (f n) (f f n)) (lambda (f n) (if (less n 1) base (sum step (f f (difference n 1))))) times)`.
    fn recursion(&mut self) {
        let times = self.times();
        self.put([APPLICATION, 2]);
        let formals = [recursive(), Kind::Number];
        let f = self.variables;
        self.lambda(&formals, |t| t.put([APPLICATION, 2, VARIABLE, f, VARIABLE, f, VARIABLE, f + 1]));
        let f = self.variables;
        self.lambda(&formals, |t| {
            t.put([IF, APPLICATION, 2, OPERATION, LESS, VARIABLE, f + 1, INTEGER, 1]);
            t.term(&Kind::Number);
            t.put([APPLICATION, 2, OPERATION, SUM]);
            t.leaf(&Kind::Number);
            t.put([APPLICATION, 2, VARIABLE, f, VARIABLE, f]);
            t.put([APPLICATION, 2, OPERATION, DIFFERENCE, VARIABLE, f + 1, INTEGER, 1]);
        });
        self.put([INTEGER, times]);
    }

    /// A recursion that wraps a closure round the last one, and applies all of them at its end: `((lambda (f n c) (f f n c))
    /// (lambda (f n c) (if (less n 1) (c) (f f (difference n 1) (lambda () (sum n (c)))))) times (lambda () base))`.
    fn chain(&mut self) {
        let times = self.times() / 2;
        let formals = [recursive(), Kind::Number, Kind::Function(Vec::new(), Box::new(Kind::Number))];
        self.put([APPLICATION, 3]);
        let f = self.variables;
        self.lambda(&formals, |t| t.put([APPLICATION, 3, VARIABLE, f, VARIABLE, f, VARIABLE, f + 1, VARIABLE, f + 2]));
        let f = self.variables;
        self.lambda(&formals, |t| {
            t.put([IF, APPLICATION, 2, OPERATION, LESS, VARIABLE, f + 1, INTEGER, 1]);
            t.put([APPLICATION, 0, VARIABLE, f + 2]);
            t.put([APPLICATION, 3, VARIABLE, f, VARIABLE, f]);
            t.put([APPLICATION, 2, OPERATION, DIFFERENCE, VARIABLE, f + 1, INTEGER, 1]);
            t.lambda(&[], |t| {
                t.put([APPLICATION, 2, OPERATION, SUM, VARIABLE, f + 1]);
                t.put([APPLICATION, 0, VARIABLE, f + 2]);
            });
        });
        self.put([INTEGER, times]);
        self.lambda(&[], |t| t.term(&Kind::Number));
    }

    /// `((lambda (x) (x x)) (lambda (x) (x x)))`, with a part that is skipped or evaluated each time.
    fn endless(&mut self) {
        self.put([APPLICATION, 1]);
        for _ in 0..2 {
            let x = self.variables;
            self.lambda(&[recursive()], |t| {
                t.put([IF]);
                t.term(&Kind::Truth);
                t.put([APPLICATION, 1, VARIABLE, x, VARIABLE, x]);
                t.put([APPLICATION, 1, VARIABLE, x, VARIABLE, x]);
            });
        }
    }

    /// A part that is refused where it is evaluated.
    fn wrong(&mut self) {
        match self.random.below(8) {
            0 => self.put([DECIMAL, 80, 2]),
            1 => self.put([OPERATION, 4]),
            2 => self.put([OPERATION, 255]),
            3 => self.put([APPLICATION, 0, OPERATION, LESS]),
            4 => self.put([APPLICATION, 3, OPERATION, SUM, INTEGER, 1, BOOLEAN, 1, INTEGER, 1]),
            5 => self.put([APPLICATION, 2, OPERATION, 3, BOOLEAN, 1, BOOLEAN, 1]),
            6 => self.put([APPLICATION, 2, OPERATION, SUM, INTEGER, 0x7fff_ffff, INTEGER, 1]),
            _ => {
                let kinds = [self.kind(), self.kind()];
                self.put([APPLICATION, 1]);
                kinds.iter().for_each(|kind| self.term(kind));
            }
        }
    }

    /// A term of many operands, of many parts inside one another, or behind many variables.
    fn large(&mut self) {
        let levels = 1 + self.random.below(4_000);
        match self.random.below(6) {
            0 => {
                self.put([APPLICATION, levels as u32]);
                (0..=levels).for_each(|_| self.leaf(&Kind::Number));
            }
            1 => {
                self.words.extend([IF].repeat(levels));
                self.leaf(&Kind::Truth);
                (0..2 * levels).for_each(|_| self.leaf(&Kind::Truth));
            }
            2 => {
                self.words.extend([APPLICATION, 2, OPERATION, SUM, INTEGER, 1].repeat(levels));
                self.put([INTEGER, 1]);
            }
            3 => {
                self.words.extend([LIST, 1].repeat(levels));
                self.put([NAME, 8]);
            }
            4 => {
                (0..levels).for_each(|_| self.put([APPLICATION, 0, LAMBDA, 0, 0]));
                self.term(&Kind::Number);
            }
            _ => {
                self.put([IF, BOOLEAN, 0]);
                self.lambdas(levels);
                self.term(&Kind::Number);
            }
        }
    }

    /// So many lambdas of eight variables inside one another, and the last variable.
    fn lambdas(&mut self, levels: usize) {
        for _ in 0..levels {
            self.words.extend([LAMBDA, self.variables, 8].into_iter().chain(0..8));
            self.variables += 8;
        }
        self.put([VARIABLE, self.variables - 1]);
    }
}

/// A word cut off, put in or changed: mostly no term is left.
pub fn damage(random: &mut Random, words: &mut Vec<u32>) {
    let at = random.below(words.len());
    let any = [u32::MAX, 0x8000_0000, 1_023, 1_024, 255, 256, 65_535][random.below(7)];
    let small = random.below(12) as u32;
    match random.below(7) {
        0 => words.truncate(at),
        1 => words.insert(at, small),
        2 => words[at] = any,
        3 => words.push(small),
        4 => drop(words.remove(at)),
        _ => words[at] = small,
    }
}

/// Words that are the same but for the numbers of names, in lambdas and in quoted data; the words are those of a term.
pub fn renamed(random: &mut Random, words: &[u32]) -> Vec<u32> {
    let mut out = words.to_vec();
    let mut at = 0;
    while at < out.len() {
        let (own, names) = match out[at] {
            IF => (1, 0),
            NAME => (2, 1),
            DECIMAL => (3, 0),
            LAMBDA => (3 + out[at + 2] as usize, out[at + 2] as usize),
            _ => (2, 0),
        };
        at += own;
        (at - names..at).for_each(|name| out[name] = random.below(1_024) as u32);
    }
    out
}
