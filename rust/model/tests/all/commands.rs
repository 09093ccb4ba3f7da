//! The program as a person calls it.

use std::io::Write;
use std::process::{Command, Output, Stdio};

use model::forge::{idle, spoil};

pub fn run(arguments: &[&str], input: &[u8]) -> Output {
    let mut child = Command::new(env!("CARGO_BIN_EXE_model"))
        .args(arguments)
        .stdin(Stdio::piped())
        .stdout(Stdio::piped())
        .stderr(Stdio::piped())
        .spawn()
        .expect("the program starts");
    let mut stdin = child.stdin.take().expect("a pipe");
    // A program that needs no input may be gone by now.
    let _ = stdin.write_all(input);
    drop(stdin);
    child.wait_with_output().expect("the program ends")
}

pub fn text(octets: &[u8]) -> String {
    String::from_utf8_lossy(octets).to_string()
}

#[test]
fn list_prints_01s_sample() {
    let output = run(&["list"], &idle(2)[..168]);
    assert!(output.status.success());
    assert_eq!(text(&output.stdout), "found 0\n0 waiting none --\nleft 8\n");
    assert_eq!(text(&run(&["list"], &[]).stdout), "none 9\n");
    assert_eq!(text(&run(&["list"], &vec![0; 70_000]).stdout), "none 9\n");
}

#[test]
fn send_frames_voice_and_reports() {
    let voice: Vec<u8> = (0..=255).collect();
    let output = run(&["send", "--offer", "80*6,18,80,1f:m,F9,1F:aet"], &voice);
    assert!(output.status.success());
    let reports = text(&output.stderr);
    for report in
        ["call 7: 18 sent in block 7", "call 9: 1F held, 1F went in block 1", "call 10: F9 held, 18 went in block 2"]
    {
        assert!(reports.contains(report), "{reports}");
    }
    assert_eq!(output.stdout.len(), 11 * 160);
    let read = text(&run(&["read"], &output.stdout).stdout);
    let sent: String = (0..140).map(|octet| format!("{octet:02X}")).collect();
    assert!(read.contains(&format!("voice {sent}\n")), "{read}");
    assert!(read.contains("voice FF*140\n"), "the muted block: {read}");
}

#[test]
fn send_reports_refusals_and_leaves_them_out() {
    let output = run(&["send", "--offer", "41,80,14", "--offer", "68"], &[]);
    assert!(output.status.success());
    assert_eq!(output.stdout.len(), 2 * 160);
    let reports = text(&output.stderr);
    assert!(reports.contains("call 1: 41 refused 5") && reports.contains("call 4: 68 refused 8"), "{reports}");
}

#[test]
fn send_takes_scripts_data_and_presets() {
    let folder = std::env::temp_dir();
    let name = |part: &str| folder.join(format!("model-test-{}-{part}", std::process::id()));
    let (script, data) = (name("script"), name("data"));
    std::fs::write(&script, "80*6 # six empty blocks\n80, 65\n80*2\n").expect("a script");
    std::fs::write(&data, (100..140).collect::<Vec<u8>>()).expect("data");
    let path = |path: &std::path::Path| path.to_string_lossy().to_string();
    let output = run(&["send", "--preset", "A140", "--script", &path(&script), "--data", &path(&data)], &[]);
    std::fs::remove_file(script).expect("the script goes");
    std::fs::remove_file(data).expect("the data goes");
    let reports = text(&output.stderr);
    assert!(reports.contains("offer 65") && reports.contains("call 1: 80 held, 14 went in block 1"), "{reports}");
    let read = text(&run(&["read"], &output.stdout).stdout);
    let octets: String = (100..120).map(|octet| format!("{octet:02X}")).collect();
    assert!(read.contains(&format!("data {octets}\n")), "{read}");
}

#[test]
fn read_goes_on_after_a_loss() {
    let mut recording = idle(4);
    for block in 0..3 {
        spoil(&mut recording, block * 160);
    }
    recording.extend(idle(2));
    let whole = [idle(1), recording].concat();
    let read = text(&run(&["read"], &whole).stdout);
    assert!(read.contains("block lost none not_read\n") && read.contains("found 640\n"), "{read}");
    assert!(read.ends_with("left 0\n"));
}

#[test]
fn session_has_every_answer() {
    let output = run(&["session"], &[]);
    assert!(output.status.success());
    let printed = text(&output.stdout);
    let (blocks, calls): (Vec<&str>, Vec<&str>) = printed.lines().partition(|line| !line.contains(' '));
    let answered = |answer: &str| calls.iter().filter(|call| call.contains(&format!(" {answer}:"))).count();
    assert_eq!((calls.len(), answered("sent"), answered("held")), (52, 29, 6));
    let refused: Vec<usize> = (1..=11).map(|number| answered(&format!("refused {number}"))).collect();
    assert_eq!(refused, [2, 2, 1, 1, 2, 1, 3, 5, 0, 0, 0]);
    assert!(blocks.len() == 35 && blocks.iter().all(|block| block.len() == 320));
    // Call 14 is muted on an item, call 15 sends mute's "audio off", call 23 the release, call 52 the caller's own.
    for call in [
        "14 18 m--- sent: chosen 20 in force 20 data 5 block 3 due 0 ",
        "15 65 m--- held: chosen 20 in force 31 data 5 block 4 due 0 ",
        "23 C5 ---- held: chosen 20 in force 20 data 1 block 8 due 0 ",
        "52 1F ---- sent: chosen 31 in force 31 data 7 block 4 due 0 ",
    ] {
        assert!(calls.iter().any(|line| line.starts_with(call)), "{call}");
    }
}

#[test]
fn reading_prints_each_block_and_six_refusals() {
    let output = run(&["reading"], &[&[1], &idle(1)[..]].concat());
    assert!(output.status.success());
    let state = "mode 31 0 kept 31 0 wrong 0 block 0 firsts 62 misses 0 due 0 0 before 1 remainder 12";
    let block = format!("1 waiting none not read\n  voice -\n  data -\n  {state}\n");
    let refused = [1, 2, 3, 4, 1, 2].map(|number| format!("refused {number} untouched\n")).concat();
    assert_eq!(text(&output.stdout), format!("recording 1: 1 blocks\n{block}{refused}"));
    assert_eq!(text(&run(&["reading"], &[]).stdout), refused);
}

#[test]
fn reading_stops_where_a_recording_is_cut() {
    let whole = [&[2], &idle(2)[..]].concat();
    for cut in [&[1][..], &[1, 0x55], &[1; 160], &[0]] {
        let output = run(&["reading"], &[&whole, cut].concat());
        assert_eq!(output.status.code(), Some(1), "{cut:?}");
        assert!(text(&output.stderr).starts_with("model: ") && text(&output.stderr).contains("recording 2"));
        assert!(text(&output.stdout).starts_with("recording 1: 2 blocks\n"), "what is whole is read");
        assert!(!text(&output.stdout).contains("refused"), "{cut:?}");
    }
}

#[test]
fn help_explains() {
    let output = run(&["--help"], &[]);
    assert!(output.status.success());
    let help = text(&output.stdout);
    for command in ["corners", "send", "session", "recordings", "reading", "list", "listings", "read"] {
        let name = format!("model {command}");
        assert!(help.lines().any(|line| line == name || line.starts_with(&format!("{name} "))), "{command}");
    }
    assert!(help.contains("--script"));
}

#[test]
fn wrong_usage_is_told() {
    let calls: [&[&str]; 20] = [
        &[],
        &["dance"],
        &["list", "file"],
        &["session", "file"],
        &["recordings", "file"],
        &["reading", "file"],
        &["listings"],
        &["listings", "/dev/null/folder"],
        &["listings", "/dev/null/folder", "file"],
        &["read", "file"],
        &["corners"],
        &["corners", "/dev/null/folder"],
        &["corners", "/dev/null/folder", "file"],
        &["send"],
        &["send", "--offer", "1"],
        &["send", "--offer", "GG"],
        &["send", "--offer", "1F:x"],
        &["send", "--offer", "1F*x"],
        &["send", "--script", "/no/such/file"],
        &["send", "--preset", "0000", "--offer", "1F"],
    ];
    for call in calls {
        let output = run(call, &[]);
        assert_eq!(output.status.code(), Some(2), "{call:?}");
        assert!(output.stdout.is_empty() && text(&output.stderr).starts_with("model: "), "{call:?}");
    }
}
