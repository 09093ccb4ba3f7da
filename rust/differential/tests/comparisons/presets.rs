//! `delampuk_read_preset` and `delampuk_write_preset`.

use differential::calls::{ReadPreset, WritePreset};
use differential::draw;

use super::run;

#[test]
fn every_preset_is_read() {
    run("every_preset_is_read", u64::MAX, |trial| {
        for bits in 0..=u16::MAX {
            let state = draw::sender(&mut trial.random);
            trial.call(&ReadPreset { state, bits });
        }
    });
}

#[test]
fn presets_are_written() {
    run("presets_are_written", 1, |trial| {
        let state = draw::sender(&mut trial.random);
        trial.call(&WritePreset { state });
    });
}
