//! The library and the model against every stored case.

use std::fs;
use std::path::{Path, PathBuf};

use vectors::by_library::Library;
use vectors::by_model::Model;
use vectors::kinds;
use vectors::run::run_all;
use vectors::subject::Subject;

fn folder() -> PathBuf {
    Path::new(env!("CARGO_MANIFEST_DIR")).join("../../tests/vectors")
}

/// Runs a file that has so many cases, some of each kind.
fn hold<S: Subject>(stage: &str, cases: usize) {
    let path = folder().join(format!("{stage}.jsonl"));
    let text = fs::read_to_string(&path).unwrap_or_else(|error| panic!("{}: {error}", path.display()));
    let report = run_all::<S>(stage, &text);
    println!("{stage}, {}: {} cases {:?}", S::NAME, report.total(), report.counts);
    assert!(report.wrong.is_empty(), "{} cases fail\n{}", report.wrong.len(), report.wrong.join("\n"));
    for kind in kinds::names::<S>() {
        assert!(report.counts.get(kind).is_some_and(|&count| count > 0), "{stage} has no case of the kind {kind}");
    }
    assert_eq!(report.total(), cases, "cases of {stage} are missing or new");
}

/// Two tests for each file.
macro_rules! stored {
    ($($name:ident: $stage:literal has $cases:literal;)*) => {
        $(mod $name {
            #[test]
            fn by_the_library() {
                super::hold::<super::Library>($stage, $cases);
            }

            #[test]
            fn by_the_model() {
                super::hold::<super::Model>($stage, $cases);
            }
        })*

        const STAGES: &[&str] = &[$($stage),*];
    };
}

stored! {
    request_103: "103" has 451;
}

#[test]
fn no_file_is_left_out() {
    let mut files = Vec::new();
    for entry in fs::read_dir(folder()).expect("the folder of the cases is there") {
        let path = entry.expect("its entries can be read").path();
        if path.extension().is_some_and(|extension| extension == "jsonl") {
            files.extend(path.file_stem().and_then(|stem| stem.to_str()).map(str::to_string));
        }
    }
    files.sort();
    assert_eq!(files, STAGES, "each file of tests/vectors stands in `stored!`, in the order of the numbers");
}
