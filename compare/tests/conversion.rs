//! The conversion of supplier's texts by the simple implementation: the example beside the album, worked by hand, the
//! texts by hand, and random rows printed in random ways.

use compare::random::xml::{Element, Printed, Style};
use compare::random::{self, Random, KINDS};
use compare::simple::{self, Refusal};
use compare::texts;

fn example(name: &str) -> Vec<u8> {
    std::fs::read(format!("../examples/{name}")).unwrap()
}

/// Columns, parent table and no rows, of both tables; offsets, the number of tables, the trailer's offset.
#[test]
fn the_albums_shape() {
    let tables = [1, 0, 255, 255, 0, 0, 2, 0, 0, 0, 0, 0];
    let trailer = [0, 0, 0, 0, 6, 0, 0, 0, 2, 0, 12, 0, 0, 0];
    assert_eq!(example("album.shape"), [&tables[..], &trailer].concat());
    assert_eq!(example("album.shape"), random::album().without_rows().file());
}

/// The rows as they stand in the text: root rows 5, 5 and one without a code; below them 1, 7; 3, 7; 1, 8 and 2, 8.
#[test]
fn the_albums_text_is_read() {
    let rows = simple::read_text(&example("album.xml")).unwrap();
    let cells = |element: &simple::Element| element.cells.iter().map(|(_, code)| *code).collect::<Vec<u32>>();
    assert!(rows.iter().all(|row| row.table == "0" && row.rows.iter().all(|below| below.table == "1")));
    assert_eq!(rows.iter().map(cells).collect::<Vec<_>>(), [vec![5], vec![5], vec![]]);
    let below: Vec<Vec<Vec<u32>>> = rows.iter().map(|row| row.rows.iter().map(cells).collect()).collect();
    assert_eq!(below, [vec![vec![1, 7]], vec![vec![3, 7]], vec![vec![1, 8], vec![2, 8]]]);
}

#[test]
fn the_albums_text_becomes_the_album() {
    let (shape, text, album) = (example("album.shape"), example("album.xml"), example("album.cat"));
    let mut output = [7; 90];
    assert_eq!(simple::convert(&shape, &text, &mut output), Ok(84));
    assert_eq!(output[..], [&album[..], &[7; 6]].concat());
    output = [7; 90];
    assert_eq!(simple::convert(&shape, &text, &mut output[..83]), Err(Refusal::Overfull));
    assert_eq!(simple::convert(&album, &text, &mut output), Err(Refusal::Misfit));
    assert_eq!(simple::convert(&shape, &text[1..], &mut output), Err(Refusal::NotOfForm));
    assert_eq!(simple::convert(&shape[1..], &text, &mut output), Err(Refusal::NoTail));
    assert_eq!(output, [7; 90]);
}

#[test]
fn texts_by_hand() {
    for text in texts::all() {
        let mut output = vec![7; text.output.unwrap_or(600_000)];
        let answer = simple::convert(&text.shape, &text.text, &mut output);
        let (told, left) = match &text.told {
            Ok(file) => (Ok(file.len()), [file, &vec![7; output.len() - file.len()][..]].concat()),
            Err(number) => (Err(*number), vec![7; output.len()]),
        };
        let shown = text.text[..text.text.len().min(300)].escape_ascii();
        assert_eq!(answer.map_err(|refusal| refusal as u8), told, "{}: {shown}", text.about);
        assert!(output == left, "{}: {shown}", text.about);
    }
}

/// However rows are printed, the same file comes of them.
#[test]
fn rows_printed_in_many_ways() {
    for seed in 0..500 {
        let random = &mut Random::new(seed);
        let draft = (random.pick(&KINDS).draft)(random);
        let (shape, catalogue) = (draft.without_rows(), Element::of(random, &draft));
        let file = catalogue.draft(&shape).file();
        for _ in 0..5 {
            let style = Style::any(random);
            let text = Printed::of(random, &style, &catalogue).text;
            assert_eq!(simple::converted(&shape.file(), &text), Ok(file.clone()), "seed {seed}");
        }
    }
}

/// White space stands in every gap that the printer tells, and nothing else.
#[test]
fn gaps_of_a_printed_text() {
    let random = &mut Random::new(3);
    let catalogue = Element::of(random, &random::album());
    for _ in 0..100 {
        let style = Style::any(random);
        let printed = Printed::of(random, &style, &catalogue);
        let white = |at: usize| b" \t\r\n".contains(&printed.text[at]);
        assert!(printed.gaps.iter().all(|(_, start, end)| (*start..*end).all(white)));
        let in_gaps: usize = printed.gaps.iter().map(|(_, start, end)| end - start).sum();
        assert_eq!((0..printed.text.len()).filter(|at| white(*at)).count(), in_gaps);
    }
}
