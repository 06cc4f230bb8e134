//! The boards in `examples`.

use buoy::{play, trial};
use std::fs;
use std::path::Path;

#[test]
fn keep_the_rules() {
    let folder = Path::new(env!("CARGO_MANIFEST_DIR")).join("../examples");
    let mut count = 0;
    for file in fs::read_dir(folder).expect("there are examples") {
        let path = file.expect("it can be read").path();
        if path.extension().is_some_and(|e| e == "txt") {
            let input = fs::read(&path).expect("it can be read");
            if let Err(failure) = trial::of_input(&input) {
                panic!("{}: {failure}", path.display());
            }
            count += 1;
        }
    }
    assert!(count > 0);
}

/// Two that can't be together, one after the other.
#[test]
fn one_by_one() {
    let input = "part 0\npart 1 needs 0 from 1 2 4 most 6\npart 2 needs 0 from 1 most 3\nrun\n\
                 0 want 1 3\ntick 1\n1 want 2 1\ntick 1\n0 give\n1 want 2 1\ntick 1\nleast\n";
    let printed = "taken\nraise 0\ngood 0\nlevel 0 2\nlevel 0 3\nlevel 0 4\nraise 1\ngood 1\nlevel 1 2\nlevel 1 3\n0 done\n\
                   taken\n1 no 5\ntaken\ntaken\nlower 1\nlevel 0 3\nlevel 0 2\nlevel 0 1\nraise 2\ngood 2\n1 done\n1 0 1\n";
    assert_eq!(String::from_utf8_lossy(&play(input.as_bytes())), printed);
}

/// What there is is drawn; who wants more is told 5, and what is on comes down before anything goes up.
#[test]
fn not_enough_for_all() {
    let input = "gives 6\npart 0 draws 1 2 6\npart 1 draws 0 2 needs 0 from 1 most 15\npart 2 draws 3\nrun\n\
                 0 want 1 2\ntick 1\ndrawn\n1 want 2 1\ntick 1\ndrawn\n2 want 0 2\n3 want 0 3\ntick 1\ntick 1\n\
                 0 give\n1 give\n3 want 0 3\ntick 1\ndrawn\ngives 7\n";
    let printed = "taken\nraise 0\ngood 0\nraise 1\ngood 1\nlevel 1 2\n0 done\n3\ntaken\nraise 2\ngood 2\n1 done\n6\n\
                   taken\ntaken\n2 no 5\n3 no 5\n\
                   taken\ntaken\ntaken\nlower 2\nlower 1\nlevel 0 2\nlevel 0 3\n3 done\n6\nline 21?\n";
    assert_eq!(String::from_utf8_lossy(&play(input.as_bytes())), printed);
}
