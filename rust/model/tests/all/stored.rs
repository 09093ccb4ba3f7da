//! Files of the repository that the model wrote: they are what it still writes, and show what they are for.

use std::fs;
use std::path::{Path, PathBuf};

use crate::commands::{run, text};
use model::codes::{held_audio, listed_data};

pub fn path(name: &str) -> PathBuf {
    Path::new(env!("CARGO_MANIFEST_DIR")).join("../..").join(name)
}

fn stored(name: &str) -> Vec<u8> {
    fs::read(path(name)).unwrap_or_else(|error| panic!("{name}: {error}"))
}

fn printed(arguments: &[&str], input: &[u8]) -> Vec<u8> {
    let output = run(arguments, input);
    assert!(output.status.success(), "{}", text(&output.stderr));
    output.stdout
}

/// Files are long, so a difference is told by its place.
fn assert_same(name: &str, stored: &[u8], expected: &[u8]) {
    let common = stored.iter().zip(expected).take_while(|(one, other)| one == other).count();
    let lengths = (stored.len(), expected.len());
    assert!(stored == expected, "{name} is another from octet {common} on; stored and expected have {lengths:?}");
}

#[test]
fn the_session_is_the_models() {
    let name = "crates/session/stdout";
    assert_same(name, &stored(name), &printed(&["session"], &[]));
}

#[test]
fn the_collection_is_the_models() {
    let name = "crates/replay/stdin";
    assert_same(name, &stored(name), &printed(&["recordings"], &[]));
}

#[test]
fn the_reading_is_the_models() {
    let name = "crates/replay/stdout";
    assert_same(name, &stored(name), &printed(&["reading"], &stored("crates/replay/stdin")));
}

#[test]
fn the_recording_that_is_sent_and_heard_is_the_models() {
    let words = text(&stored("crates/speak/args"));
    let calls: Vec<&str> = words.lines().collect();
    let expected = printed(&["send", "--offer", &calls.join(",")], &stored("crates/speak/stdin"));
    for name in ["crates/speak/stdout", "crates/hear/stdin"] {
        assert_same(name, &stored(name), &expected);
    }
}

#[test]
fn the_listings_are_the_models() {
    let folder = std::env::temp_dir().join(format!("model-test-{}-listings", std::process::id()));
    assert!(printed(&["listings", &folder.to_string_lossy()], &[]).is_empty());
    let names = names_in(&folder);
    assert_eq!(names, names_in(&path("tests/listings")));
    for name in names {
        let expected = fs::read(folder.join(&name)).expect("a file that was written");
        assert_same(&name, &stored(&format!("tests/listings/{name}")), &expected);
    }
    fs::remove_dir_all(folder).expect("the folder goes");
}

fn names_in(folder: &Path) -> Vec<String> {
    let entries = fs::read_dir(folder).unwrap_or_else(|error| panic!("{folder:?}: {error}"));
    let mut names: Vec<String> =
        entries.map(|entry| entry.expect("an entry").file_name().to_string_lossy().to_string()).collect();
    names.sort();
    names
}

#[test]
fn the_listings_show_what_they_are_for() {
    let raw = |name: &str| stored(&format!("tests/listings/{name}.raw"));
    let txt = |name: &str| text(&stored(&format!("tests/listings/{name}.txt")));
    let lines = |name: &str, word: &str| txt(name).lines().filter(|line| line.contains(word)).count();

    assert_eq!((raw("sample").len(), txt("sample").as_str()), (168, "found 0\n0 waiting none --\nleft 8\n"));
    for (name, octets, number) in [("empty", 0, 9), ("short", 167, 9), ("zeros", 168, 10), ("too-long", 65_537, 9)] {
        assert_eq!((raw(name).len(), txt(name)), (octets, format!("none {number}\n")));
    }
    assert!(txt("middle").starts_with("found 103\n") && txt("middle").contains(" read good "));
    assert!(txt("within").ends_with("\nleft 159\n"));
    assert_eq!((lines("losses", "found"), lines("losses", "lost none --")), (4, 3));
    assert!(lines("losses", "read good --") > 0, "a word that is unreadable by its alignment bits alone");
    for (name, end) in [("end-short", "left 167"), ("end-found", "found 2240\n14 waiting none --\nleft 8")] {
        assert!(txt(name).ends_with(&format!("\n13 lost none --\n{end}\n")), "{name}");
    }
    assert!(txt("end-none").ends_with("\n13 lost none --\nleft 400\n"));
    assert_eq!(txt("almost"), "found 2520\n0 waiting none --\nleft 8\n");
    // The false places; after them the real ones, which lie at whole blocks from 500 and from -170 on.
    assert!(txt("false-voice").starts_with("found 37\n") && txt("false-voice").contains("\nfound 980\n"));
    assert!(txt("false-data").starts_with("found 6\n") && txt("false-data").contains("\nfound 4310\n"));
    assert!(lines("false-data", "read bad 0B") > 0, "even words are read at the false place");
    assert_eq!((raw("longest").len(), lines("longest", "good"), lines("longest", "bad")), (65_536, 408, 0));
    assert!(txt("longest").ends_with("\nleft 96\n"));
}

/// One block as `model reading` shows it.
#[derive(Clone, Debug)]
struct Shown {
    standing: String,
    verdict: String,
    /// The reading without its code.
    kind: String,
    voice: String,
    data: String,
    mode: (u8, u8),
    kept: (u8, u8),
    wrong: u8,
    block: u8,
    misses: u8,
    due: (u8, u8),
}

/// The recordings of a printed reading, block by block.
fn shown() -> Vec<Vec<Shown>> {
    let printed = text(&stored("crates/replay/stdout"));
    let mut lines = printed.lines().peekable();
    let mut recordings = Vec::new();
    while let Some(head) = lines.next_if(|line| line.starts_with("recording ")) {
        let blocks = (1..=number_in(head, 2)).map(|number| {
            let mut next = || lines.next().expect("a line");
            block(number, [next(), next(), next(), next()])
        });
        recordings.push(blocks.collect());
        assert!(head.starts_with(&format!("recording {}: ", recordings.len())));
    }
    let refused: Vec<&str> = lines.collect();
    assert_eq!(refused, [1, 2, 3, 4, 1, 2].map(|number| format!("refused {number} untouched")));
    recordings
}

fn number_in(line: &str, word: usize) -> u8 {
    let number = line.split_whitespace().nth(word).and_then(|word| word.parse().ok());
    number.unwrap_or_else(|| panic!("word {word} of \"{line}\" is no number"))
}

fn block(number: u8, [answer, voice, data, state]: [&str; 4]) -> Shown {
    let words: Vec<&str> = answer.split(' ').collect();
    assert_eq!(words[0], number.to_string());
    let names = words[3..].iter().filter(|word| word.chars().all(|letter| letter.is_ascii_lowercase()));
    let octets = |line: &str, name: &str| line.strip_prefix(name).expect("the line's name").to_string();
    let at = |word| number_in(state, word);
    Shown {
        standing: words[1].to_string(),
        verdict: words[2].to_string(),
        kind: names.copied().collect::<Vec<&str>>().join(" "),
        voice: octets(voice, "  voice "),
        data: octets(data, "  data "),
        mode: (at(1), at(2)),
        kept: (at(4), at(5)),
        wrong: at(7),
        block: at(9),
        misses: at(13),
        due: (at(15), at(16)),
    }
}

#[test]
fn the_collection_has_every_answer() {
    let recordings = shown();
    assert!(recordings.iter().all(|blocks| blocks.len() >= 8), "the place is found");
    let blocks = recordings.concat();
    assert!(blocks.len() <= 400);
    let has = |holds: &dyn Fn(&Shown) -> bool| blocks.iter().any(holds);
    for standing in ["waiting", "read", "lost"] {
        assert!(has(&|block| block.standing == standing), "{standing}");
    }
    for verdict in ["none", "good", "bad"] {
        assert!(has(&|block| block.verdict == verdict), "{verdict}");
    }
    for kind in ["mended", "item", "message", "forbidden", "not followed", "unreadable", "not read"] {
        assert!(has(&|block| block.kind == kind), "{kind}");
    }
    for due in 0..=3 {
        assert!(has(&|block| block.due.0 == due), "due {due}");
    }
}

/// Octets come out under every audio and every data value but off.
#[test]
fn the_collection_has_every_mode() {
    let recordings = shown();
    let cut_by = |wanted: &dyn Fn((u8, u8), &Shown) -> bool| {
        recordings.iter().any(|blocks| blocks.windows(2).any(|pair| wanted(pair[0].mode, &pair[1])))
    };
    for audio in (0..31).filter(|&audio| held_audio(audio)) {
        assert!(cut_by(&|mode, block| mode.0 == audio && block.voice != "-"), "audio {audio}");
    }
    for data in (1..=31).filter(|&data| listed_data(data)) {
        assert!(cut_by(&|mode, block| mode.1 == data && block.data != "-"), "data {data}");
    }
}

/// What two blocks in a row of one recording have to show.
#[test]
fn the_collection_has_every_turn() {
    let recordings = shown();
    let has = |turn: &dyn Fn(&Shown, &Shown) -> bool| {
        recordings.iter().any(|blocks| blocks.windows(2).any(|pair| turn(&pair[0], &pair[1])))
    };
    let is_lost = |block: &Shown| block.standing == "lost";
    let is_read = |block: &Shown| block.standing == "read";

    assert!(has(&|one, two| is_lost(two) && one.mode != one.kept && two.mode == one.kept), "the mode goes back");
    assert!(has(&|one, two| is_lost(two) && one.block == 0), "lost while waiting");
    assert!(has(&|one, two| is_lost(two) && one.misses > 0 && two.misses == 0), "a loss ends the other run");
    assert!(has(&|one, two| is_lost(two) && one.due.0 == 3 && two.due == (0, 0)), "a loss ends a message");
    assert!(has(&|one, two| one.wrong == 1 && two.wrong == 0), "one wrong word");
    let stands = |one: &Shown, two: &Shown| one.mode != one.kept && two.mode == one.mode && two.kept == two.mode;
    assert!(has(&|one, two| one.wrong == 2 && two.wrong == 0 && is_read(two) && stands(one, two)), "it stands");
    assert!(has(&|one, two| one.due == (2, 0) && two.kind == "unreadable" && two.due == (3, 255)), "N unreadable");
    assert!(has(&|one, two| one.due == (2, 0) && two.kind == "message" && two.due == (0, 0)), "N is 0");
    assert!(has(&|one, two| one.due == (1, 0) && two.kind == "unreadable" && two.due == (0, 0)), "item unreadable");
    assert!(has(&|one, two| one.mode.1 != 0 && two.mode == (24, 0)), "audio turns data off");
    assert!(has(&|one, two| one.mode.0 != 31 && two.mode == (31, 13)), "data turns audio off");
    let third = |one: &Shown| one.block == 6 && one.misses == 2;
    assert!(has(&|one, two| third(one) && two.block == 7 && two.misses == 0), "a right pattern ends the run");
    let place_goes = |two: &Shown| is_read(two) && two.block == 0 && two.misses == 0;
    assert!(has(&|one, two| third(one) && place_goes(two) && two.mode != (31, 0)), "patterns lose the place");
    assert!(has(&|one, two| third(one) && place_goes(two) && two.mode != one.mode), "but the command is followed");
    assert!(has(&|one, two| third(one) && place_goes(two) && one.due.0 == 3 && two.due == (0, 0)), "and the message");
    assert!(has(&|one, two| one.standing == "waiting" && is_read(two) && one.mode != (31, 0)), "found again");
}
