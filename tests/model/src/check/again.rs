//! A kept script or chain once more, with everything about the first difference.

use super::differences::Difference;
use super::program::Program;
use super::table::Tally;
use super::{side_by_side, transcripts};
use crate::doors::chain::{Chain, HEAD};
use crate::doors::replay::expected;
use crate::doors::script::Script;
use crate::doors::seam::Seam;

/// The bytes of a file that begins as a chain does are one; others are a
/// script. False if something differs from the model.
pub fn again(bytes: &[u8], replay: &Program, seam: &dyn Seam) -> bool {
    if bytes.starts_with(HEAD) {
        let Some(chain) = Chain::decode(bytes) else {
            println!("the chain is cut off");
            return false;
        };
        println!("a chain of {} steps", chain.steps.len());
        let difference = side_by_side::first_difference(&chain, seam, &mut Tally::default());
        return print("at the seam", difference);
    }
    let script = Script::decode(bytes);
    println!("a script of {} calls{}", script.calls.len(), if script.bad { ", then BAD SCRIPT" } else { "" });
    let on_replay = print("on replay", replay_difference(bytes, &script, replay));
    let chain = Chain::of_script(&script);
    let difference = side_by_side::first_difference(&chain, seam, &mut Tally::default());
    print("at the seam", difference) && on_replay
}

fn replay_difference(bytes: &[u8], script: &Script, replay: &Program) -> Option<Difference> {
    match replay.transcript(bytes, bytes.len().max(1)) {
        Ok(got) => transcripts::first_difference(&got, &expected(script).0),
        Err(what) => Some(Difference { what, details: Vec::new() }),
    }
}

fn print(door: &str, difference: Option<Difference>) -> bool {
    match &difference {
        None => println!("{}: as the model", door),
        Some(Difference { what, details }) => {
            println!("{}: {}", door, what);
            for detail in details {
                println!("  {}", detail);
            }
        }
    }
    difference.is_none()
}
