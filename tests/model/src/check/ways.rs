//! Demand 3 on the model itself: where nothing else touches the volume, the
//! plain way (held blocks worked out anew before every call) and the kept way
//! give the same answers and the same bytes, the volume passes inspection after
//! every call, and a refusal changes nothing.

use crate::doors::replay::{Line, Player};
use crate::doors::script::{Call, Script};
use crate::paper::calls::*;
use crate::paper::held::{held_by_entries, Holding, Way};
use crate::paper::inspection::lowest_bad_slot;

/// The first thing wrong in a script without touches, if anything is.
pub fn first_fault(script: &Script) -> Option<String> {
    let mut plain = Player::new(script.geometry, script.volume.clone(), Way::Plain);
    let mut kept = Player::new(script.geometry, script.volume.clone(), Way::Kept);
    for (number, call) in script.calls.iter().enumerate() {
        let before = kept.clone();
        let plain_line = plain.play(call);
        let line = kept.play(call);
        let fault = if plain_line != line {
            Some("the plain way answers or shows something else")
        } else if plain.volume != kept.volume {
            Some("the plain way leaves another volume")
        } else if !succeeded(line.function, line.answer, line.value) && changed(call, &line, &before, &kept) {
            Some("a refusal changed something")
        } else {
            unsound(&kept)
        };
        if let Some(fault) = fault {
            return Some(format!("call {} (function {}): {}", number, call.function, fault));
        }
    }
    None
}

/// Whether any lent byte or the state is another (a refused log-in closes it).
fn changed(call: &Call, line: &Line, before: &Player, after: &Player) -> bool {
    let control = line.control.as_ref().is_some_and(|control| *control != call.control);
    let buffer = line.buffer.as_ref().is_some_and(|buffer| *buffer != call.buffer);
    let state = !LOG_INS.contains(&call.function) && before.drive != after.drive;
    control || buffer || state || before.volume != after.volume
}

/// What an open drive and its volume always fulfil.
fn unsound(player: &Player) -> Option<&'static str> {
    let state = player.drive.as_ref()?;
    if lowest_bad_slot(&state.geometry, &player.volume).is_some() {
        return Some("the volume does not pass inspection afterwards");
    }
    if state.holding != Holding::Kept(held_by_entries(&state.geometry, &player.volume)) {
        return Some("the held blocks are not the directory's");
    }
    None
}
