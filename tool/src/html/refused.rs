//! The page of a refused text.

use etglavino::{Form, Refusal, MAX_SOURCE};

use super::{escaped, framed, shown};
use crate::files::Source;
use crate::place;

/// What is wrong with a text, and its octets with the place marked. There is no
/// script: a link leads to the place.
pub fn refused(source: &Source, why: Refusal) -> String {
    let place = place::of(why, source.form, &source.octets);
    let told = match place {
        Some(place) => format!(
            "{}, <a href=\"#wrong\">{}</a>.</p>\n<pre>{}</pre>",
            escaped(&why.to_string()),
            place::words(&source.octets, place),
            escaped(&place::shown(&source.octets, place)),
        ),
        None => format!("{}.</p>", escaped(&why.to_string())),
    };
    let main = format!(
        "<section id=\"refused\"><h2>What is wrong</h2>\n<p>{told}</section>\n\
         <section id=\"octets\"><h2>The text</h2>\n<pre>{}</pre></section>",
        marked(&source.octets, place),
    );
    framed(&source.name, &read_as(source), &main, "")
}

/// How much there is of the text, and how it was read.
fn read_as(source: &Source) -> String {
    let form = match source.form {
        Form::Canonical => "canonical",
        Form::Basic => "basic",
        Form::Advanced => "advanced",
        Form::Terminal1997 => "terminal",
    };
    match source.octets.len() {
        length if length > MAX_SOURCE => {
            format!("More than {MAX_SOURCE} octets, read as {form} text.")
        }
        length => format!("{length} octets, read as {form} text."),
    }
}

/// All octets, a line a line; the octet at the place is marked, or the end.
fn marked(octets: &[u8], place: Option<usize>) -> String {
    let Some(place) = place.map(|place| place.min(octets.len())) else {
        return lines(octets);
    };
    let (before, after) = octets.split_at(place);
    let (wrong, after) = after.split_at(after.len().min(1));
    let end = if wrong == b"\n" { "\n" } else { "" };
    format!(
        "{}<mark id=\"wrong\" tabindex=\"0\" autofocus>{}</mark>{end}{}",
        lines(before),
        shown(wrong),
        lines(after),
    )
}

/// Octets as text, with a new line behind each line feed.
fn lines(octets: &[u8]) -> String {
    octets
        .split_inclusive(|octet| *octet == b'\n')
        .map(|line| match line.ends_with(b"\n") {
            true => shown(line) + "\n",
            false => shown(line),
        })
        .collect()
}
