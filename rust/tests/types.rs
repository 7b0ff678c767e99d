//! Forms and refusals as values.

use std::collections::HashSet;
use std::error::Error;

use etglavino::{Extent, Form, Refusal};

const REFUSALS: [Refusal; 8] = [
    Refusal::Form,
    Refusal::SourceSize,
    Refusal::Syntax { place: 0 },
    Refusal::Depth,
    Refusal::Nodes,
    Refusal::Size,
    Refusal::NotOwn,
    Refusal::NoNode,
];

#[test]
fn refusals_are_numbered_from_one_in_order() {
    for (number, refusal) in (1..).zip(REFUSALS) {
        assert_eq!(refusal.number(), number);
        let shown = refusal.to_string();
        assert_eq!(shown, format!("refused {number}: {}", refusal.sentence()));
    }
    let sentences: HashSet<_> = REFUSALS.iter().map(|refusal| refusal.sentence()).collect();
    assert_eq!(sentences.len(), 8);
}

#[test]
fn a_refusal_is_an_error() {
    fn fails() -> Result<Extent, Box<dyn Error>> {
        Ok(etglavino::read(Form::Advanced, b"(", &mut [], &mut [])?)
    }
    let error = fails().expect_err("an open list");
    assert_eq!(error.downcast_ref(), Some(&Refusal::Syntax { place: 0 }));
}

#[test]
fn forms_from_numbers() {
    for form in [
        Form::Canonical,
        Form::Basic,
        Form::Advanced,
        Form::Terminal1997,
    ] {
        assert_eq!(Form::try_from(form as u32), Ok(form));
    }
    assert_eq!(Form::Canonical as u32, 1);
    assert_eq!(Form::Basic as u32, 2);
    assert_eq!(Form::Advanced as u32, 3);
    assert_eq!(Form::Terminal1997 as u32, 4);
    for number in [0, 5, u32::MAX] {
        assert_eq!(Form::try_from(number), Err(Refusal::Form));
    }
}
