//! One page that needs nothing else: of a sheet its tree and its octets side by
//! side, each node marked in both where one is pointed at; of a refused text what
//! is wrong, and its octets with the place marked.

mod refused;

use etglavino::{Kind, Node, OwnedSheet};

use crate::commands::show::{meaning, spelled};
use crate::nodes;

pub use refused::refused;

const STYLE: &str = include_str!("page.css");
const SCRIPT: &str = include_str!("page.js");

/// What a page may do: it has no other script than its own, which is told by its
/// digest, and fetches nothing. A test holds the digest to the script.
const POLICY: &str = "default-src 'none'; style-src 'unsafe-inline'; \
    script-src 'sha256-/uYXPF3iUZpP3D1aabO+8r2SztF/jf95LNQdC4lmibo='";

/// The page of a sheet, with a title.
pub fn page(sheet: &OwnedSheet, title: &str) -> String {
    let extent = sheet.extent();
    let rows: String = sheet.nodes().map(row).collect();
    let octets = octets(sheet.root(), sheet.canonical());
    let about = format!(
        "{} octets, {} nodes. <span id=\"place\"></span>",
        extent.length, extent.nodes,
    );
    let main = format!(
        "<section id=\"tree\"><h2>Nodes</h2>\n{rows}</section>\n\
         <section id=\"octets\"><h2>Canonical form</h2>\n<pre>{octets}</pre></section>",
    );
    framed(
        title,
        &about,
        &main,
        &format!("<script>{SCRIPT}</script>\n"),
    )
}

/// A page around what stands in it. The title is text, the rest is not.
fn framed(title: &str, about: &str, main: &str, script: &str) -> String {
    let title = escaped(title);
    format!(
        "<!DOCTYPE html>\n<html lang=\"en\">\n<head>\n<meta charset=\"utf-8\">\n\
         <meta http-equiv=\"Content-Security-Policy\" content=\"{POLICY}\">\n\
         <meta name=\"viewport\" content=\"width=device-width\">\n\
         <title>{title}</title>\n<style>\n{STYLE}</style>\n</head>\n<body>\n\
         <header><h1>{title}</h1>{about}</header>\n\
         <main>\n{main}\n</main>\n{script}</body>\n</html>\n",
    )
}

/// A node's line of the tree.
fn row(node: Node<'_>) -> String {
    let (number, path) = (node.number(), nodes::path(node));
    let (depth, range) = (path.matches('/').count(), node.range());
    let (what, also) = (escaped(&spelled(node)), escaped(&meaning(node)));
    let what = match node.kind() {
        Kind::List => format!("<i>list, {what}</i>"),
        Kind::String | Kind::Hinted => what,
    };
    format!(
        "<div tabindex=\"0\" data-node=\"{number}\" title=\"at {path}, octets {} to {}\" \
         style=\"--depth:{depth}\"><b>{number}</b>{what}<i>{also}</i></div>\n",
        range.start, range.end,
    )
}

/// A node's octets, with those of its elements inside.
fn octets(node: Node<'_>, canonical: &[u8]) -> String {
    let range = node.range();
    let (mut inside, mut at) = (String::new(), range.start);
    for child in node.children() {
        inside += &shown(&canonical[at..child.range().start]);
        inside += &octets(child, canonical);
        at = child.range().end;
    }
    inside += &shown(&canonical[at..range.end]);
    format!("<span data-node=\"{}\">{inside}</span>", node.number())
}

/// Octets as text; what can't be printed is spelled, and set apart.
fn shown(octets: &[u8]) -> String {
    let spell = |octet: &u8| match octet {
        b' '..=b'~' => escaped(char::from(*octet).encode_utf8(&mut [0; 4])),
        _ => format!("<em>\\x{octet:02x}</em>"),
    };
    octets.iter().map(spell).collect()
}

/// Text that stays text in a page and in an attribute of it.
fn escaped(text: &str) -> String {
    let mut out = String::new();
    for letter in text.chars() {
        match letter {
            '&' => out += "&amp;",
            '<' => out += "&lt;",
            '>' => out += "&gt;",
            '"' => out += "&quot;",
            '\'' => out += "&#39;",
            _ => out.push(letter),
        }
    }
    out
}
