//! The corpus that is committed for the proved library's test program is the
//! one that this program makes.

use std::fs;
use std::path::Path;

use reference::corpus::files;

#[test]
fn the_committed_corpus_is_made_here() {
    let (mut cases, mut expected) = (Vec::new(), Vec::new());
    files::write(files::SEED, files::COUNT, &mut cases, &mut expected).unwrap();
    let directory = Path::new(env!("CARGO_MANIFEST_DIR")).join("../crates/vectors");
    for (name, made) in [("stdin", cases), ("stdout", expected)] {
        let committed = fs::read(directory.join(name)).unwrap();
        assert!(committed == made, "crates/vectors/{name} is another");
    }
}
