//! An implementation whose refusals leave their mark is told from one whose refusals do not.

use vectors::by_model::Model;
use vectors::run::run;
use vectors::states::{Reader, Sender};
use vectors::subject::{Block, Call, Subject};

use crate::stored::{first, some};

/// The model, but for what a refusal leaves.
struct Careless;

impl Subject for Careless {
    const NAME: &'static str = "careless model";

    type Sender = <Model as Subject>::Sender;
    type Reader = <Model as Subject>::Reader;

    fn fresh_sender() -> Self::Sender {
        Model::fresh_sender()
    }

    fn forged_sender(state: &Sender) -> Self::Sender {
        Model::forged_sender(state)
    }

    fn sender_state(sender: &Self::Sender) -> Sender {
        Model::sender_state(sender)
    }

    fn send(sender: &mut Self::Sender, call: &Call, line: &mut [u8]) -> Result<&'static str, u8> {
        Model::send(sender, call, line).inspect_err(|_| {
            sender.block += 1;
            line[0] ^= 1;
        })
    }

    fn read_preset(octets: [u8; 2]) -> Result<(Self::Sender, u8), u8> {
        Model::read_preset(octets)
    }

    fn write_preset(sender: &Self::Sender) -> Result<[u8; 2], u8> {
        Model::write_preset(sender)
    }

    fn fresh_reader() -> Self::Reader {
        Model::fresh_reader()
    }

    fn forged_reader(state: &Reader) -> Self::Reader {
        Model::forged_reader(state)
    }

    fn reader_state(reader: &Self::Reader) -> Reader {
        Model::reader_state(reader)
    }

    fn read(reader: &mut Self::Reader, line: &[u8], voice: &mut [u8], lsd: &mut [u8]) -> Result<Block, u8> {
        Model::read(reader, line, voice, lsd).inspect_err(|_| {
            reader.wrong_words += 1;
            voice[0] ^= 1;
            lsd[0] ^= 1;
        })
    }

    fn find(recording: &[u8], start: usize) -> Result<usize, u8> {
        Model::find(recording, start)
    }

    fn list(recording: &[u8]) -> String {
        Model::list(recording)
    }
}

/// The fields that are told of a case.
fn fields(case: &vectors::case::Case) -> Vec<String> {
    let found = run::<Careless>(case).expect("the case can be run");
    found.into_iter().map(|difference| difference.field).collect()
}

#[test]
fn what_a_refusal_changed_is_told() {
    for (kind, changed) in [("sender", &["state", "line"][..]), ("reader", &["state", "voice", "data"])] {
        let wanted: Vec<String> = changed.iter().map(|part| format!("out after the refusal: {part}")).collect();
        let cases = some(kind, true, usize::MAX);
        assert!(cases.len() > 30, "{kind} has {} refusals", cases.len());
        for case in cases {
            assert_eq!(fields(&case), wanted, "{}", case.id);
        }
    }
}

#[test]
fn a_refusal_in_a_session_too() {
    let found = fields(&first("session"));
    assert!(found.iter().any(|field| field.ends_with("] after the refusal: line")), "{found:?}");
}
