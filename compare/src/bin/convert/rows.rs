//! Texts with 4,096 rows of a table, and with one more.

use crate::trial::{Outcome, Room, Trial};
use compare::random::xml::{Element, Printed, Style};
use compare::random::{album, Draft, DraftTable, Random};
use compare::simple::ROWS;

/// Texts whose largest table has as many rows as may be, or one more: of the root, or of a table below it.
pub fn run(trial: &mut Trial) -> Outcome {
    let style = Style::any(&mut trial.random);
    let shape = shape(&mut trial.random);
    let mut catalogue = full(&mut trial.random, &shape);
    let bare = shape.file();
    let text = Printed::of(&mut trial.random, &style, &catalogue).text;
    trial.becomes("4,096 rows", &bare, &text, &catalogue.draft(&shape).file())?;
    trial.told("4,096 rows and output one byte short", &bare, &text, Room::OneShort, 22)?;
    one_more(&mut trial.random, &shape, &mut catalogue);
    let text = Printed::of(&mut trial.random, &style, &catalogue).text;
    trial.told("4,097 rows", &bare, &text, Room::Enough, 22)?;
    let torn = [&text[..], b"<"].concat();
    trial.told("4,097 rows and 20", &bare, &torn, Room::Enough, 20)?;
    catalogue.content.push(Element::row(shape.tables.len()));
    let text = Printed::of(&mut trial.random, &style, &catalogue).text;
    trial.told("4,097 rows and 21", &bare, &text, Room::Enough, 21)
}

/// One, two or three tables of up to two columns, one below the other.
fn shape(random: &mut Random) -> Draft {
    let tables = random.from_to(1, 3);
    let mut draft = album().without_rows();
    draft.tables.truncate(1);
    for i in 1..tables {
        let below = DraftTable { columns: random.below(3), parent: i - 1, rows: Vec::new() };
        draft.tables.push(below);
    }
    draft
}

/// Rows of the last table, as many as may be, in few rows of the tables above it.
fn full(random: &mut Random, shape: &Draft) -> Element {
    let last = shape.tables.len() - 1;
    let mut rows: Vec<Element> = (0..ROWS).map(|k| row(shape, last, k)).collect();
    for table in (0..last).rev() {
        let count = random.from_to(1, 3);
        let mut above: Vec<Element> = (0..count).map(|k| row(shape, table, k)).collect();
        for row in rows {
            above[random.below(count)].content.push(row);
        }
        rows = above;
    }
    Element { content: rows, ..Element::new("catalogue") }
}

fn row(shape: &Draft, table: usize, k: usize) -> Element {
    let codes: Vec<u32> = (0..shape.tables[table].columns).map(|own| (k * (own + 1)) as u32).collect();
    Element::with_codes(table, &codes)
}

/// A row more of the last table, before the others or behind them.
fn one_more(random: &mut Random, shape: &Draft, catalogue: &mut Element) {
    let last = shape.tables.len() - 1;
    let mut above = catalogue;
    for table in 0..last {
        let leads_on = |at: &usize| table + 1 == last || !above.content[*at].content.is_empty();
        let rows: Vec<usize> = (0..above.content.len()).filter(leads_on).collect();
        above = &mut above.content[random.pick(&rows)];
    }
    let at = random.pick(&[0, above.content.len()]);
    above.content.insert(at, row(shape, last, 0));
}
