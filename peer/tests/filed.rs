//! Every filed case gives the output filed with it, and its paper where that is filed.

use peer::paper::pages;
use peer::trial::Peer;
use std::fs;
use std::path::Path;

#[test]
fn filed_cases() {
    let drawer = Path::new(env!("CARGO_MANIFEST_DIR")).join("../cases");
    let mut cases = 0;
    for entry in fs::read_dir(drawer).expect("the case drawer") {
        let path = entry.expect("an entry").path();
        if path.extension().is_some_and(|extension| extension == "case") {
            let input = fs::read(&path).expect("a case");
            let output = fs::read(path.with_extension("out")).expect("its output");
            assert_eq!(peer::desk(&input), output, "{}", path.display());
            if let Ok(paper) = fs::read(path.with_extension("paper")) {
                assert_eq!(pages(&Peer, &input), paper, "{}", path.display());
            }
            cases += 1;
        }
    }
    assert!(cases > 0);
}
