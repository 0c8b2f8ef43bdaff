//! Elements before they are text. All names and values are kept as they are printed, so nothing keeps them right.

use crate::random::{Draft, Random};
use crate::simple::{MISSING, NO_PARENT};

/// `catalogue` or a row. Preorder numbers an element and those in it: 0 is the element itself.
#[derive(Clone, Debug)]
pub struct Element {
    pub name: String,
    pub attributes: Vec<(String, String)>,
    pub content: Vec<Element>,
    /// The name in its end tag, where that is another.
    pub end: Option<String>,
}

impl Element {
    pub fn new(name: impl Into<String>) -> Element {
        Element { name: name.into(), attributes: Vec::new(), content: Vec::new(), end: None }
    }

    /// A row of a table.
    pub fn row(table: usize) -> Element {
        Element::new(format!("t{table}"))
    }

    /// A row of a table with some codes, those that are not missing as attributes.
    pub fn with_codes(table: usize, codes: &[u32]) -> Element {
        let present = codes.iter().enumerate().filter(|(_, code)| **code != MISSING);
        let attributes = present.map(|(own, code)| (format!("c{own}"), code.to_string())).collect();
        Element { attributes, ..Element::row(table) }
    }

    /// The rows of a draft in `catalogue`. Attributes stand in one order throughout, or each row has its own; rows of
    /// several tables that stand in one row are mixed, or not.
    pub fn of(random: &mut Random, draft: &Draft) -> Element {
        let (mixed, order) = (random.once_in(2), random.below(3));
        let mut catalogue = Element::new("catalogue");
        catalogue.content = rows_within(random, draft, NO_PARENT, NO_PARENT, mixed);
        catalogue.order_attributes(random, order);
        catalogue
    }

    fn order_attributes(&mut self, random: &mut Random, order: usize) {
        match order {
            0 => {}
            1 => self.attributes.reverse(),
            _ => shuffle(random, &mut self.attributes),
        }
        self.content.iter_mut().for_each(|row| row.order_attributes(random, order));
    }

    /// The table of a row, if its number is a right one.
    pub fn table(&self) -> Option<usize> {
        self.name.strip_prefix('t')?.parse().ok()
    }

    /// How many elements there are, this one and those in it.
    pub fn count(&self) -> usize {
        1 + self.content.iter().map(Element::count).sum::<usize>()
    }

    /// The element of a preorder number, and how many rows stand around it and itself.
    pub fn at(&mut self, number: usize) -> (&mut Element, usize) {
        let mut left = number;
        let (mut element, mut depth) = (self, 0);
        while left > 0 {
            left -= 1;
            let mut child = 0;
            while left >= element.content[child].count() {
                left -= element.content[child].count();
                child += 1;
            }
            element = &mut element.content[child];
            depth += 1;
        }
        (element, depth)
    }

    /// Any row, if there is one.
    pub fn any_row(&mut self, random: &mut Random) -> Option<&mut Element> {
        let count = self.count();
        (count > 1).then(|| self.at(random.from_to(1, count - 1)).0)
    }

    /// Takes any row out, with the rows in it.
    pub fn take_row(&mut self, random: &mut Random) -> Option<Element> {
        let parents: Vec<usize> = (0..self.count()).filter(|number| !self.at(*number).0.content.is_empty()).collect();
        let parent = if parents.is_empty() { return None } else { self.at(random.pick(&parents)).0 };
        let child = random.below(parent.content.len());
        Some(parent.content.remove(child))
    }

    /// Puts a row among those of this element.
    pub fn put(&mut self, random: &mut Random, row: Element) {
        let at = random.below(self.content.len() + 1);
        self.content.insert(at, row);
    }

    /// The draft that right elements mean: the tables of a shape, with rows in text order.
    pub fn draft(&self, shape: &Draft) -> Draft {
        let mut draft = shape.without_rows();
        self.content.iter().for_each(|row| row.add_to(&mut draft, NO_PARENT));
        draft
    }

    fn add_to(&self, draft: &mut Draft, parent: usize) {
        let table = &mut draft.tables[self.table().expect("a right table number")];
        let mut codes = vec![MISSING; table.columns];
        for (name, value) in &self.attributes {
            codes[name[1..].parse::<usize>().expect("a right column number")] = value.parse().expect("a right value");
        }
        table.rows.push((parent, codes));
        let row = table.rows.len() - 1;
        self.content.iter().for_each(|below| below.add_to(draft, row));
    }
}

/// The rows of a draft in one row of a table, or those of the root.
fn rows_within(random: &mut Random, draft: &Draft, table: usize, row: usize, mixed: bool) -> Vec<Element> {
    let mut rows = Vec::new();
    for (i, below) in draft.tables.iter().enumerate().filter(|(_, below)| below.parent == table) {
        for (k, (_, codes)) in below.rows.iter().enumerate().filter(|(_, (parent, _))| *parent == row) {
            let mut element = Element::with_codes(i, codes);
            element.content = rows_within(random, draft, i, k, mixed);
            rows.push(element);
        }
    }
    if mixed {
        shuffle(random, &mut rows);
    }
    rows
}

fn shuffle<T>(random: &mut Random, items: &mut [T]) {
    for i in (1..items.len()).rev() {
        items.swap(i, random.below(i + 1));
    }
}
