//! Item tables put item by item, so that they may be larger and deeper than reading lets them be.

/// An item table under construction: items refer to higher ones, so that a list is opened before what stands in it.
#[derive(Default)]
pub struct Table(Vec<u32>);

impl Table {
    /// A recipe's two elements.
    pub fn recipe(operations: &mut dyn FnMut(&mut Table), expression: &mut dyn FnMut(&mut Table)) -> Vec<u32> {
        let mut table = Table::default();
        table.list(2, &mut |t, place| if place == 0 { operations(t) } else { expression(t) });
        table.0
    }

    /// The two elements of a text cut into parentheses, integers and names, which are numbered by a function.
    pub fn read(words: &[&str], number: &mut dyn FnMut(&str) -> u32) -> Vec<u32> {
        let (mut table, mut open) = (Table::default(), vec![None]);
        for word in words {
            if *word == ")" {
                table.end(open.pop().expect("a list is open"));
                continue;
            }
            let last = open.last_mut().expect("a list is open");
            let pair = table.after(*last);
            *last = Some(pair);
            match word.parse::<i32>() {
                _ if *word == "(" => open.push(None),
                Ok(n) => table.integer(n as u32),
                Err(_) => table.name(number(word)),
            }
        }
        table.end(open.pop().expect("the list of two elements"));
        table.0
    }

    /// A pair behind the last of an open list, whose head comes next.
    fn after(&mut self, last: Option<usize>) -> usize {
        last.into_iter().for_each(|pair| self.refer(pair, 2));
        let pair = self.put([4, 0, 0]);
        self.refer(pair, 1);
        pair
    }

    /// The end of an open list.
    fn end(&mut self, last: Option<usize>) {
        last.into_iter().for_each(|pair| self.refer(pair, 2));
        self.empty();
    }

    fn put(&mut self, item: [u32; 3]) -> usize {
        self.0.extend(item);
        self.0.len() / 3 - 1
    }

    /// The next item's number is what a pair refers to.
    fn refer(&mut self, pair: usize, place: usize) {
        self.0[3 * pair + place] = (self.0.len() / 3) as u32;
    }

    pub fn name(&mut self, number: u32) {
        self.put([3, number, 0]);
    }

    pub fn integer(&mut self, word: u32) {
        self.put([1, word, 0]);
    }

    pub fn decimal(&mut self, word: u32, places: u32) {
        self.put([5, word, places]);
    }

    pub fn empty(&mut self) {
        self.put([0, 0, 0]);
    }

    /// A list of so many elements, each put by its place.
    pub fn list(&mut self, count: usize, element: &mut dyn FnMut(&mut Table, usize)) {
        for place in 0..count {
            let pair = self.put([4, 0, 0]);
            self.refer(pair, 1);
            element(self, place);
            self.refer(pair, 2);
        }
        self.empty();
    }

    /// `(... ((inner)) ...)`, without recursion.
    pub fn nest(&mut self, depth: usize, inner: &mut dyn FnMut(&mut Table)) {
        let pairs: Vec<usize> = (0..depth)
            .map(|_| {
                let pair = self.put([4, 0, 0]);
                self.refer(pair, 1);
                pair
            })
            .collect();
        inner(self);
        for pair in pairs.into_iter().rev() {
            self.refer(pair, 2);
            self.empty();
        }
    }
}
