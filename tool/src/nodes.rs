//! Nodes by number or by path.

use std::ffi::OsStr;
use std::os::unix::ffi::OsStrExt;

use etglavino::{Node, OwnedSheet};

use crate::problem::{usage, word, Problem};

/// A number of digits alone.
pub fn number(given: &OsStr) -> Option<usize> {
    let text = given.to_str()?;
    let digits = text.bytes().all(|octet| octet.is_ascii_digit());
    text.parse().ok().filter(|_| digits)
}

/// How a node is named: its number, and then elements level by level, each by its
/// place from 0. `0/3/1` is the second element of the fourth one of the whole.
pub struct Named {
    start: usize,
    places: Vec<usize>,
}

impl Named {
    pub fn of(name: &OsStr) -> Result<Named, Problem> {
        let parts = name.as_bytes().split(|octet| *octet == b'/');
        let numbers: Option<Vec<usize>> =
            parts.map(|part| number(OsStr::from_bytes(part))).collect();
        match numbers.as_deref() {
            Some([start, places @ ..]) => Ok(Named {
                start: *start,
                places: places.to_vec(),
            }),
            _ => usage(format!(
                "{} is no node's number, as 7, and no path, as 0/3/1",
                word(name)
            )),
        }
    }

    /// Its number in a sheet. Where there is no such node that is a number which
    /// no node has, for the library to refuse in its order.
    pub fn number(&self, sheet: &OwnedSheet) -> usize {
        let start = sheet.node(self.start);
        let mut places = self.places.iter();
        let found =
            start.and_then(|start| places.try_fold(start, |node, place| node.child(*place)));
        found.map_or(usize::MAX, Node::number)
    }
}

/// A node's path from the whole.
pub fn path(node: Node<'_>) -> String {
    match node.parent() {
        None => "0".into(),
        Some(list) => {
            let place = list
                .children()
                .take_while(|child| child.number() < node.number());
            format!("{}/{}", path(list), place.count())
        }
    }
}

#[cfg(test)]
mod tests {
    use super::*;
    use etglavino::Form;

    #[test]
    fn every_node_is_found_by_its_number_and_by_its_path() {
        let sheet = OwnedSheet::of_text(Form::Advanced, b"(a (b (c) ()) d)").unwrap();
        let paths: Vec<_> = sheet.nodes().map(path).collect();
        let expected = [
            "0", "0/0", "0/1", "0/1/0", "0/1/1", "0/1/1/0", "0/1/2", "0/2",
        ];
        assert_eq!(paths, expected);
        for (number, path) in paths.iter().enumerate() {
            for name in [path.clone(), number.to_string()] {
                let named = Named::of(OsStr::new(&name)).unwrap();
                assert_eq!(named.number(&sheet), number);
            }
        }
        assert_eq!(Named::of(OsStr::new("4/0")).unwrap().number(&sheet), 5);
        for missing in ["8", "0/3", "0/0/0", "1/0", "18446744073709551615"] {
            let named = Named::of(OsStr::new(missing)).unwrap();
            assert_eq!(named.number(&sheet), usize::MAX);
        }
    }

    #[test]
    fn what_names_no_node_at_all() {
        for name in [
            "",
            "/",
            "0/",
            "/0",
            "-1",
            "+1",
            "0x1",
            "a",
            "0//1",
            "99999999999999999999",
        ] {
            assert!(Named::of(OsStr::new(name)).is_err(), "{name}");
        }
    }
}
