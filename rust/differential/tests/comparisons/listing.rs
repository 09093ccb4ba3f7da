//! `delampuk_list`.

use delampuk::LISTING_MAX;
use differential::calls::{List, Octets};
use differential::draw;

use super::run;

/// Room for every listing of a recording that is drawn, in some cases for less than the listing has.
#[test]
fn listings() {
    let reached = run("listings", 20, |trial| {
        let recording = Octets(draw::recording(&mut trial.random));
        let room = if trial.random.percent(80) { LISTING_MAX } else { trial.random.below(200) };
        let text = Octets(trial.random.octets(room));
        trial.call(&List { recording, text });
    });
    reached.all("fits", 0..=1);
}
