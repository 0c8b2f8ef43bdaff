//! The texts by hand; and small texts with every damage to each of their bytes.

use crate::damages::bytes;
use crate::trial::{Outcome, Room, Trial};
use compare::random::xml::{Element, Printed, Style};
use compare::random::{album, Random};
use compare::{ffi, simple, texts};

pub fn run(trial: &mut Trial) -> Outcome {
    trial.start(7);
    by_hand(trial)?;
    let shape = album().without_rows().file();
    let catalogue = Element::of(&mut Random::new(0), &album());
    let mut printed =
        vec![std::fs::read("../examples/album.xml").map_err(|error| format!("../examples/album.xml: {error}"))?];
    for seed in 0..4 {
        let style = if seed == 0 { Style::lines() } else { Style::any(&mut Random::new(seed)) };
        printed.push(Printed::of(&mut Random::new(seed), &style, &catalogue).text);
    }
    for text in &printed {
        trial.told("whole", &shape, text, Room::Enough, 0)?;
        for (kind, text) in bytes::every(text) {
            trial.compare(kind, &shape, &text, Room::Enough)?;
        }
    }
    Ok(())
}

/// Each text by hand, by the simple implementation and by the library.
fn by_hand(trial: &mut Trial) -> Outcome {
    for text in texts::all() {
        let outcome = match (&text.told, text.output) {
            (Ok(file), None) => trial.becomes("by hand", &text.shape, &text.text, file),
            (Err(number), None) => trial.told("by hand", &text.shape, &text.text, Room::Enough, *number),
            (_, Some(bytes)) => with_output(&text, bytes),
        };
        outcome.map_err(|difference| format!("{}: {difference}", text.about))?;
    }
    Ok(())
}

/// A text with an output of so many bytes.
fn with_output(text: &texts::Text, bytes: usize) -> Outcome {
    let noise = vec![0xA5; bytes];
    let (mut library, mut document) = (noise.clone(), noise.clone());
    let reply = ffi::convert(&text.shape, &text.text, &mut library);
    let answer = simple::convert(&text.shape, &text.text, &mut document);
    let (expected, left) = match &text.told {
        Ok(file) => (file.len() as i64, [file, &noise[file.len()..]].concat()),
        Err(number) => (-(*number as i64), noise),
    };
    let answer = answer.map_or_else(|refusal| -(refusal as i64), |bytes| bytes as i64);
    if [reply, answer] == [expected; 2] && [&library, &document] == [&left; 2] {
        return Ok(());
    }
    Err(format!("output of {bytes} bytes\n  library  {reply}\n  document {answer}\n  made for {expected}"))
}
