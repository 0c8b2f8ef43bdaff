//! The rows of one random catalogue as a text, and what comes of it by damages.

use crate::damages::{by_place, bytes, foreign, height, misfit, OF_FORM, OF_NO_FORM};
use crate::rows;
use crate::trial::{Outcome, Room, Trial};
use compare::random::xml::{Element, Printed, Style};
use compare::random::{self, Draft, KINDS};
use compare::simple::TABLES;

/// A draft, its tables without rows, its rows as elements, and these as a text.
struct Supplied {
    draft: Draft,
    bare: Draft,
    shape: Vec<u8>,
    catalogue: Element,
    printed: Printed,
}

/// All comparisons on one catalogue.
pub fn run(trial: &mut Trial) -> Outcome {
    let draft = (trial.random.pick(&KINDS).draft)(&mut trial.random);
    let (bare, catalogue) = (draft.without_rows(), Element::of(&mut trial.random, &draft));
    let supplied = Supplied { shape: bare.file(), printed: printed(trial, &catalogue), draft, bare, catalogue };
    let kind = if height(&supplied.catalogue) > TABLES { "whole, rows 16 deep" } else { "whole" };
    let (text, file) = (&supplied.printed.text, supplied.catalogue.draft(&supplied.bare).file());
    trial.becomes(kind, &supplied.shape, text, &file)?;
    damaged_bytes(trial, &supplied)?;
    damaged_elements(trial, &supplied)?;
    output_and_shape(trial, &supplied)?;
    two_grounds(trial, &supplied)?;
    if trial.random.once_in(300) {
        rows::run(trial)?;
    }
    Ok(())
}

/// The text of some elements in any style.
fn printed(trial: &mut Trial, catalogue: &Element) -> Printed {
    let style = Style::any(&mut trial.random);
    Printed::of(&mut trial.random, &style, catalogue)
}

fn damaged_bytes(trial: &mut Trial, supplied: &Supplied) -> Outcome {
    for (kind, alter) in bytes::BYTES.into_iter().chain([("several", bytes::several as bytes::Alter)]) {
        let mut text = supplied.printed.text.clone();
        alter(&mut trial.random, &mut text);
        trial.compare(kind, &supplied.shape, &text, Room::Enough)?;
    }
    Ok(())
}

fn damaged_elements(trial: &mut Trial, supplied: &Supplied) -> Outcome {
    for (kind, alter) in OF_FORM.into_iter().chain(OF_NO_FORM) {
        let mut catalogue = supplied.catalogue.clone();
        let Some(number) = alter(&mut trial.random, &supplied.bare, &mut catalogue) else { continue };
        let text = printed(trial, &catalogue).text;
        if number == 0 {
            trial.becomes(kind, &supplied.shape, &text, &catalogue.draft(&supplied.bare).file())?;
        } else {
            trial.told(kind, &supplied.shape, &text, Room::Enough, number)?;
        }
    }
    let text = foreign::put(&mut trial.random, &supplied.printed);
    trial.told("foreign", &supplied.shape, &text, Room::Enough, 20)?;
    let text = foreign::put_outside(&mut trial.random, &supplied.printed);
    trial.told("foreign outside", &supplied.shape, &text, Room::Enough, 20)
}

/// The output too short, and the shape with rows, damaged, or of another catalogue.
fn output_and_shape(trial: &mut Trial, supplied: &Supplied) -> Outcome {
    let text = &supplied.printed.text;
    trial.told("output one byte short", &supplied.shape, text, Room::OneShort, 22)?;
    trial.told("output short", &supplied.shape, text, Room::Short, 22)?;
    if has_rows(&supplied.draft) {
        let shape = supplied.draft.file();
        trial.told("shape with rows", &shape, text, Room::Enough, 21)?;
        trial.told("shape with rows and output short", &shape, text, Room::None, 21)?;
    }
    let shape = damaged_shape(trial, supplied);
    trial.compare("damaged shape", &shape, text, Room::Enough)?;
    let other = random::small_draft(&mut trial.random, 4, 0);
    let known = by_place(&other, &supplied.catalogue);
    let number = trial.compare("another shape", &other.file(), text, Room::Enough)?;
    // a column number may not fit where the places do
    let alike = number == known || (known, number) == (0, 21);
    alike.then_some(()).ok_or_else(|| format!("another shape\n  both answer {number}\n  by its rows' places {known}"))
}

/// The shape with a damage, or the catalogue with rows with one.
fn damaged_shape(trial: &mut Trial, supplied: &Supplied) -> Vec<u8> {
    let draft = trial.random.pick(&[&supplied.bare, &supplied.draft]);
    random::damaged(&mut trial.random, &draft.layout())
}

fn has_rows(draft: &Draft) -> bool {
    draft.tables.iter().any(|table| !table.rows.is_empty())
}

/// Texts with grounds of two numbers: the lower comes, wherever the two stand.
fn two_grounds(trial: &mut Trial, supplied: &Supplied) -> Outcome {
    let mut catalogue = supplied.catalogue.clone();
    misfit(&mut trial.random, &supplied.bare, &mut catalogue);
    let text = printed(trial, &catalogue).text;
    trial.told("21 and output short", &supplied.shape, &text, Room::None, 21)?;
    let behind = [&text[..], trial.random.pick(&[b"<" as &[u8], b"x", b"<t0/>", b"<!---->", b"\0"])].concat();
    trial.told("20 behind 21", &supplied.shape, &behind, Room::Enough, 20)?;
    let before = [trial.random.pick(&[b"\xEF\xBB\xBF" as &[u8], b"x", b"<t0/>", b"<?xml?>", b"\0"]), &text].concat();
    trial.told("20 before 21", &supplied.shape, &before, Room::Enough, 20)?;
    let torn = foreign::put(&mut trial.random, &supplied.printed);
    trial.told("20 and output short", &supplied.shape, &torn, Room::None, 20)?;
    if has_rows(&supplied.draft) {
        trial.told("shape with rows and 20", &supplied.draft.file(), &torn, Room::Enough, 20)?;
    }
    let shape = damaged_shape(trial, supplied);
    trial.compare("damaged shape and 20", &shape, &torn, Room::Enough).map(drop)
}
