//! `delampuk picture` as a person calls it.

use std::fs::{self, File};
use std::io::Write;
use std::path::PathBuf;
use std::process::{Command, Output, Stdio};

use delampuk::{Call, Sender, LINE, LSD, VOICE};

/// The session of `docs/lesson.svg`: mute is pressed on the item after an escape.
const LESSON: &str = "--calls 80*6 14 65 80 F0 25:m 80:m*3 80*4";

fn command(arguments: &str) -> Command {
    let mut command = Command::new(env!("CARGO_BIN_EXE_delampuk"));
    command.arg("picture").args(arguments.split_whitespace()).stdin(Stdio::null());
    command
}

fn run(arguments: &str) -> Output {
    command(arguments).output().expect("the command runs")
}

/// The picture of a run that ends well.
fn drawn(output: Output) -> String {
    let told = String::from_utf8_lossy(&output.stderr).into_owned();
    assert_eq!((output.status.code(), told.as_str()), (Some(0), ""));
    picture(&output)
}

fn picture(output: &Output) -> String {
    let svg = String::from_utf8(output.stdout.clone()).expect("a picture is text");
    check_balance(&svg);
    svg
}

fn drawn_from_input(octets: &[u8]) -> String {
    let mut child = command("").stdin(Stdio::piped()).stdout(Stdio::piped()).stderr(Stdio::piped()).spawn().unwrap();
    child.stdin.take().unwrap().write_all(octets).unwrap();
    drawn(child.wait_with_output().unwrap())
}

fn file(name: &str, octets: &[u8]) -> PathBuf {
    let folder = PathBuf::from(env!("CARGO_TARGET_TMPDIR"));
    let path = folder.join(name);
    fs::write(&path, octets).unwrap();
    path
}

/// Every element that is opened is closed, in order, and no other sign of XML stands in between.
fn check_balance(svg: &str) {
    let mut open = Vec::new();
    let mut rest = svg;
    while let Some(start) = rest.find('<') {
        assert!(!rest[..start].contains('>'), "a > in text: {}", &rest[..start]);
        check_entities(&rest[..start]);
        let end = start + rest[start..].find('>').expect("a tag ends");
        let tag = &rest[start + 1..end];
        assert!(!tag.contains('<') && tag.matches('"').count() % 2 == 0, "no tag: {tag}");
        match (tag.strip_prefix('/'), tag.ends_with('/')) {
            (Some(name), _) => assert_eq!(open.pop(), Some(name)),
            (None, true) => {}
            (None, false) => open.push(tag.split(' ').next().unwrap()),
        }
        rest = &rest[end + 1..];
    }
    assert_eq!((open.len(), rest), (0, "\n"));
}

fn check_entities(text: &str) {
    for part in text.split('&').skip(1) {
        assert!(["amp;", "lt;", "gt;", "quot;"].iter().any(|name| part.starts_with(name)), "a bare &: {text}");
    }
}

/// What the areas of the rows say, each with its class.
fn areas(svg: &str) -> Vec<String> {
    let rects = svg.lines().filter_map(|line| line.strip_prefix("<rect class=\""));
    let told = rects.filter_map(|rect| {
        let (class, rest) = rect.split_once('"')?;
        let tells = rest.split_once("<title>")?.1.strip_suffix("</title></rect>")?;
        tells.starts_with("block").then(|| format!("{class} {tells}"))
    });
    told.collect()
}

fn of_class<'a>(areas: &'a [String], class: &str) -> Vec<&'a str> {
    areas.iter().filter_map(|area| area.strip_prefix(class)?.strip_prefix(' ')).collect()
}

/// The labels of marks.
fn marks(svg: &str) -> Vec<&str> {
    let texts = svg.lines().filter_map(|line| line.strip_prefix("<text class=\"mark\""));
    texts.map(|text| text.split_once('>').unwrap().1.strip_suffix("</text>").unwrap()).collect()
}

/// So many blocks: audio and data from the block after the sixth and seventh on, and then words that change nothing.
fn recording(blocks: usize) -> Vec<u8> {
    let mut sender = Sender::new();
    let mut octets = Vec::new();
    for number in 0..blocks {
        let code = match number {
            6 => 0x14,
            7 => 0x65,
            _ => 0x80,
        };
        let mut line = [0; LINE];
        sender.send(&Call::offer(code), &[number as u8; VOICE], &[0; LSD], &mut line).unwrap();
        octets.extend(line);
    }
    octets
}

#[test]
fn the_stored_lesson_is_what_is_drawn() {
    assert_eq!(drawn(run(LESSON)), include_str!("../../../docs/lesson.svg"));
}

/// The session of the lesson as README.md gives it.
#[test]
fn readme_shows_the_lesson() {
    let readme = include_str!("../../../README.md");
    assert!(readme.contains("delampuk picture --calls '80*6' 14 65 80 F0 25:m '80:m*3' '80*4'"));
    assert!(readme.contains("](docs/lesson.svg)"));
}

#[test]
fn every_row_shows_its_blocks() {
    let svg = drawn(run("--calls 80*6 14 65 F0 25:m 80:m*2 80*2"));
    let expected = "\
muted blocks 9 to 11: pressed
carried blocks 7 to 8: carried
ones blocks 9 to 10: ones in its place
carried block 13: carried
idle block 0: 80, changes nothing
idle block 1: 80, changes nothing
idle block 2: 80, changes nothing
idle block 3: 80, changes nothing
idle block 4: 80, changes nothing
idle block 5: 80, changes nothing
command block 6: 14, command
command block 7: 65, command
opener block 8: F0, says what comes next
item block 9: 25, item, no command
own block 10: 1F, the sender's own command; the offered code is held (80)
idle block 11: 80, changes nothing
own block 12: 14, the sender's own command; the offered code is held (80)
idle block 13: 80, changes nothing
audio blocks 7 to 10: 6
audio block 13: 6
data blocks 8 to 13: 5
carried blocks 7 to 8: carried
ones blocks 9 to 10: ones in its place
carried block 13: carried
command block 6: 14, command
command block 7: 65, command
opener block 8: F0, says what comes next
item block 9: 25, item, no command
command block 10: 1F, command
idle block 11: 80, changes nothing
command block 12: 14, command
idle block 13: 80, changes nothing
audio blocks 7 to 10: 6
audio block 13: 6
data blocks 8 to 13: 5
good blocks 1 to 13: good
waiting blocks 0 to 5: waits for its place
read blocks 6 to 13: reads";
    assert_eq!(areas(&svg), expected.lines().collect::<Vec<_>>());
    assert_eq!(marks(&svg), ["7", "8", "11", "13", "7", "8", "11", "13"]);
}

#[test]
fn a_recording_shows_what_was_lost() {
    let svg = drawn_from_input(&fs::read("../../tests/listings/losses.raw").unwrap()[..8000]);
    let areas = areas(&svg);
    assert!(svg.contains(">standard input: 49 blocks from octet 0 on, 2 octets left</text>"));
    assert_eq!(of_class(&areas, "lost"), ["block 15: lost alignment", "block 43: lost alignment"]);
    assert_eq!(of_class(&areas, "bad"), ["blocks 12 to 14: bad", "block 30: bad", "blocks 41 to 42: bad"]);
    assert_eq!(of_class(&areas, "unreadable").len(), 7);
    assert_eq!(of_class(&areas, "audio"), ["blocks 7 to 14: 6", "blocks 22 to 24: 6", "blocks 25 to 42: 4"]);
    assert_eq!(marks(&svg), ["2563", "7198", "7", "8", "25"]);
    assert_eq!(svg.matches("class=\"again\"").count(), 2);
}

/// Below 59 blocks a word has its code; below 251 a block has its column.
#[test]
fn it_condenses_by_steps() {
    let words = |blocks| of_class(&areas(&drawn(run(&format!("--calls 80*{blocks}")))), "idle").len();
    // one for each word of the sender and of the reader, which waits in six blocks, or one for all of them
    assert_eq!((words(58), words(59)), (58 + 52, 2));
    let columns = |blocks| drawn(run(&format!("--calls 80*{blocks}"))).contains("A column stands for 2 blocks");
    assert_eq!((columns(250), columns(251)), (false, true));
}

#[test]
fn one_bad_block_of_five_thousand_shows() {
    let mut octets = recording(5000);
    octets[2503 * LINE + 100] ^= 0x80;
    let svg = drawn_from_input(&octets);
    let areas = areas(&svg);
    assert!(svg.contains("5,000 blocks from octet 0 on, 0 octets left"));
    assert!(svg.contains("A column stands for 20 blocks"));
    assert_eq!(of_class(&areas, "bad"), ["blocks 2500 to 2519: bad"]);
    assert_eq!(of_class(&areas, "lost"), [""; 0]);
    assert_eq!(of_class(&areas, "good"), ["blocks 0 to 2499: good", "blocks 2520 to 4999: good"]);
    assert_eq!(of_class(&areas, "carried")[0], "blocks 0 to 19: carried in 13 of 20");
    assert_eq!(of_class(&areas, "some"), ["blocks 0 to 19: up to 6"]);
    assert_eq!(of_class(&areas, "audio"), ["blocks 20 to 4999: 6"]);
    assert_eq!(marks(&svg), ["7", "8"]);
}

#[test]
fn one_lost_block_of_five_thousand_shows() {
    let mut octets = recording(5000);
    octets[3210 * LINE..3213 * LINE].fill(0);
    let areas = areas(&drawn_from_input(&octets));
    assert_eq!(of_class(&areas, "lost"), ["blocks 3200 to 3219: lost alignment"]);
    let waits = ["blocks 0 to 19: waits for its place", "blocks 3220 to 3239: waits for its place"];
    assert_eq!(of_class(&areas, "waiting"), waits);
    assert_eq!(of_class(&areas, "unreadable"), ["blocks 3200 to 3219: unreadable"]);
}

#[test]
fn marks_without_room_are_counted() {
    let calls = "--calls 14 ".to_string() + &"18 14 ".repeat(1000);
    let svg = drawn(run(&calls));
    let changes = svg.matches("class=\"mark\"").count();
    // each call changes the mode of the next block; the reader has missed those before block 7
    let all = 2000 + 1994;
    assert!(svg.contains(&format!("; {} of {all} have no room for it", all - changes)));
    assert!(svg.matches("class=\"tick\"").count() < 1500);
}

#[test]
fn voice_comes_from_a_file() {
    let ones = file("ones.raw", &[0xFF; 240]);
    let words = "80*6 14 80*3";
    let areas = areas(&drawn(run(&format!("--voice {} --calls {words}", ones.display()))));
    // two blocks take it, and zeros follow; a reader cannot tell a voice of ones from a mute
    assert_eq!(of_class(&areas, "carried"), ["blocks 7 to 9: carried", "block 9: carried"]);
    assert_eq!(of_class(&areas, "ones"), ["blocks 7 to 8: ones in its place"]);
}

#[test]
fn a_name_is_written_as_xml_wants_it() {
    let path = file("a<b>&\"c\".raw", &recording(9));
    let output = command("").arg(&path).output().unwrap();
    assert!(drawn(output).contains(">a&lt;b&gt;&amp;&quot;c&quot;.raw: 9 blocks"));
}

#[test]
fn a_long_name_is_cut() {
    let path = file(&"é".repeat(40), &recording(2)[..LINE + 8]);
    let output = command("").arg(&path).output().unwrap();
    let title = format!(">{}...: 1 block from octet 0 on, 8 octets left<", "é".repeat(32));
    assert!(drawn(output).contains(&title));
}

#[test]
fn a_refused_call_is_drawn_and_told() {
    let output = run("--calls 80*6 14 65 80 18 80");
    assert_eq!(output.status.code(), Some(1));
    let told = String::from_utf8_lossy(&output.stderr).into_owned();
    assert!(told.contains("refused 8: audio and data would hold the same bits"), "{told}");
    let svg = picture(&output);
    assert_eq!(marks(&svg), ["8", "7", "8", "7", "8"]);
    assert!(svg.contains("before block 9: 18 refused 8"));
}

#[test]
fn what_cannot_be_drawn_is_told() {
    let cases = [
        ("--calls", 2, "no call is given"),
        ("--calls 80 ZZ", 2, "\"ZZ\" is no call"),
        ("--calls 80*99999999999", 2, "more than 10000000 calls"),
        ("--calls 22", 1, "refused 5"),
        ("--voice x", 2, "--voice goes with --calls"),
        ("--voice", 2, "--voice asks for a value"),
        ("--colour", 2, "there is no option --colour"),
        ("one two", 2, "two is one argument too many"),
        ("no-such-file", 1, "no-such-file cannot be read"),
        ("--voice no-such-file --calls 80", 1, "no-such-file cannot be read"),
        ("../../tests/listings/zeros.raw", 1, "refused 10"),
        ("", 1, "refused 9"),
    ];
    for (arguments, status, reason) in cases {
        let output = run(arguments);
        let told = String::from_utf8_lossy(&output.stderr).into_owned();
        assert_eq!(output.status.code(), Some(status), "{arguments}: {told}");
        assert!(told.contains(reason), "{arguments}: {told}");
        assert!(output.stdout.is_empty(), "{arguments}");
    }
}

#[test]
fn a_full_disk_is_told() {
    let full = File::options().write(true).open("/dev/full").unwrap();
    let output = command(LESSON).stdout(full).output().unwrap();
    assert_eq!(output.status.code(), Some(1));
    assert!(String::from_utf8_lossy(&output.stderr).contains("the output cannot be written"));
}
