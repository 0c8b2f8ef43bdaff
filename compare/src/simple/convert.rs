//! The conversion of a supplier's text into a catalogue file: document 02 f, refusals 21 and 22.

use super::Refusal::{self, *};
use super::{check, read_text, Catalogue, Element, Row, MISSING, NO_PARENT, ROWS};

/// One conversion: "1 to 7 on the shape come first, then 20, 21, 22 over the whole text."
pub fn convert(shape: &[u8], text: &[u8], output: &mut [u8]) -> Result<usize, Refusal> {
    delivered(&converted(shape, text)?, output)
}

/// "The catalogue file goes to the start of the output, no other byte changes, and its length is returned"; "22 when
/// ... the output is short".
pub fn delivered(file: &[u8], output: &mut [u8]) -> Result<usize, Refusal> {
    if file.len() > output.len() {
        return Err(Overfull);
    }
    output[..file.len()].copy_from_slice(file);
    Ok(file.len())
}

/// The catalogue file, whatever the output; "21 when a table or column number or a row's place doesn't fit the shape,
/// or the shape has rows, 22 when a table passes 4,096 rows".
pub fn converted(shape: &[u8], text: &[u8]) -> Result<Vec<u8>, Refusal> {
    let mut catalogue = check(shape)?;
    let rows = read_text(text)?;
    if catalogue.tables.iter().any(|table| !table.rows.is_empty()) {
        return Err(Misfit);
    }
    add_rows(&mut catalogue, &rows, None)?;
    if catalogue.tables.iter().any(|table| table.rows.len() > ROWS) {
        return Err(Overfull);
    }
    Ok(file_of(&catalogue))
}

/// Adds the rows that stand in `catalogue`, or in a row given by its table and number, each before those in it: "rows
/// are numbered in text order within their table".
fn add_rows(catalogue: &mut Catalogue, rows: &[Element], within: Option<(usize, usize)>) -> Result<(), Refusal> {
    for element in rows {
        let table = below(&element.table, catalogue.tables.len())?;
        let fits = match within {
            None => table == 0,
            Some((above, _)) => table != 0 && catalogue.tables[table].parent == above,
        };
        if !fits {
            return Err(Misfit);
        }
        let mut codes = vec![MISSING; catalogue.tables[table].own];
        for (column, code) in &element.cells {
            codes[below(column, catalogue.tables[table].own)?] = *code;
        }
        let number = catalogue.tables[table].rows.len();
        let parent = within.map_or(NO_PARENT, |(_, row)| row);
        catalogue.tables[table].rows.push(Row { parent, codes });
        add_rows(catalogue, &element.rows, Some((table, number)))?;
    }
    Ok(())
}

/// The number of some digits. 21 if it is not below a bound; one that no word holds is below none.
fn below(digits: &str, bound: usize) -> Result<usize, Refusal> {
    digits.parse().ok().filter(|number| *number < bound).ok_or(Misfit)
}

/// The bytes of a catalogue ("The catalogue file").
fn file_of(catalogue: &Catalogue) -> Vec<u8> {
    let mut file = Vec::new();
    let mut offsets = Vec::new();
    for (i, table) in catalogue.tables.iter().enumerate() {
        offsets.push(file.len());
        let parent = if i == 0 { NO_PARENT } else { table.parent };
        for number in [table.own, parent, table.rows.len()] {
            file.extend((number as u16).to_le_bytes());
        }
        for row in &table.rows {
            file.extend((row.parent as u16).to_le_bytes());
            row.codes.iter().for_each(|code| file.extend(code.to_le_bytes()));
        }
    }
    let trailer = file.len();
    for offset in &offsets {
        file.extend((*offset as u32).to_le_bytes());
    }
    file.extend((offsets.len() as u16).to_le_bytes());
    file.extend((trailer as u32).to_le_bytes());
    file
}
