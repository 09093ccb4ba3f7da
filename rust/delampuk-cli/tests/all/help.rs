//! Help, version, and calls that are wrong.

use std::fs;

use crate::common::{finished, in_repository, run};

const SUBCOMMANDS: [&str; 4] = ["send", "hear", "list", "picture"];

#[test]
fn help_names_every_subcommand() {
    for words in [&["--help"], &["-h"], &["help"]] {
        let ran = run(words, b"");
        assert_eq!((ran.status, ran.error.as_str()), (0, ""));
        for name in SUBCOMMANDS {
            assert!(ran.text().lines().any(|line| line.starts_with(&format!("  {name} "))), "{name}");
        }
    }
}

#[test]
fn each_subcommand_has_help_and_a_version() {
    for name in SUBCOMMANDS {
        let help = run(&[name, "--help"], b"");
        assert_eq!((help.status, help.error.as_str()), (0, ""));
        assert!(help.text().starts_with(&format!("usage: delampuk {name} ")));
        assert!(help.text().ends_with('\n'));
        let version = run(&[name, "--version"], b"");
        assert_eq!((version.status, version.text()), (0, concat!("delampuk ", env!("CARGO_PKG_VERSION"), "\n")));
    }
    assert_eq!(run(&["--version"], b""), run(&["list", "-V"], b""));
}

#[test]
fn wrong_calls_have_status_2_and_write_nothing() {
    let wrong: [&[&str]; 14] = [
        &[],
        &["lists"],
        &["--words"],
        &["list", "--word"],
        &["list", "--words=1"],
        &["list", "a", "b"],
        &["hear", "-o"],
        &["hear", "a", "b"],
        &["send"],
        &["send", "ZZ"],
        &["send", "80", "80*0"],
        &["send", "80", "--data"],
        &["send", "--preset", "C1", "80"],
        &["send", "--preset", "C100", "--state", "x", "80"],
    ];
    for words in wrong {
        let ran = run(words, b"");
        assert_eq!((ran.status, ran.out.len()), (2, 0), "{words:?}");
        assert!(ran.error.starts_with("delampuk") && ran.error.contains("--help"), "{words:?}: {}", ran.error);
    }
}

/// The options are the words of the help that begin a line with two dashes.
#[test]
fn the_man_page_has_every_subcommand_and_option() {
    let page =
        fs::read_to_string(in_repository("rust/delampuk-cli/delampuk.1")).expect("it is there").replace("\\-", "-");
    assert!(page.starts_with(concat!(".TH DELAMPUK 1 \"\" \"delampuk ", env!("CARGO_PKG_VERSION"), "\"")));
    let mut options = 0;
    for name in SUBCOMMANDS {
        assert!(page.contains(&format!("\n.SS {name}\n")), "{name}");
        let help = run(&[name, "--help"], b"");
        for option in help.text().lines().filter_map(|line| line.strip_prefix("  --")) {
            let option = option.split(' ').next().expect("a word follows");
            let named = [format!("\n.B --{option}\n"), format!("\n.BI --{option} \"")];
            assert!(named.iter().any(|named| page.contains(named)), "{name} --{option}");
            options += 1;
        }
    }
    assert!(options >= 8, "{options} options");
}

/// A name that is no text is told, and is no panic.
#[test]
fn octets_that_are_no_text_are_taken() {
    use std::ffi::OsStr;
    use std::os::unix::ffi::OsStrExt;
    let name = OsStr::from_bytes(b"\xFF\xFE");
    for (words, status) in [(&["list"][..], 1), (&["send"], 2), (&[], 2)] {
        let ran = finished(crate::common::command(words).arg(name).spawn().expect("the command is built"));
        assert_eq!(ran.status, status, "{words:?}");
        assert!(ran.error.starts_with("delampuk"), "{}", ran.error);
    }
}
