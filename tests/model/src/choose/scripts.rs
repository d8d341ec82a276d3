//! Random scripts, for `replay` and for the seam.

use super::aims::View;
use super::alterations::{alteration, slot_at};
use super::bad_scripts::bad_script;
use super::geometries::{geometry, wide_geometry, wrong_geometry};
use super::images::{contents, image_of_wrong_geometry, make_length_wrong, valid_image};
use super::random::Random;
use super::runs::Chooser;
use crate::check::pairs::Door;
use crate::doors::replay::Player;
use crate::doors::script::{lay, Call, Script, LARGEST_VOLUME, TOUCH};
use crate::paper::calls::LOG_INS;
use crate::paper::directory::EMPTY;
use crate::paper::floppy::{logical, start_of};
use crate::paper::geometry::{Geometry, RECORD, SLOT};
use crate::paper::held::Way;
use crate::paper::inspection::lowest_bad_slot;

/// What is wrong with a script's image from the start.
#[derive(Clone, Copy, PartialEq, Eq, Debug)]
enum Fault {
    None,
    /// One byte of a valid image is another.
    NearlyValid,
    /// A few alterations, wild entries among them.
    Damaged,
    /// Nothing but noise.
    Noise,
    /// The volume's length is not T times B.
    Length,
    /// The geometry is outside the rules.
    Geometry,
}

/// The bytes of the random script of this seed and number.
pub fn script_bytes(seed: u64, number: u64) -> Vec<u8> {
    let mut random = Random::new(seed, 2 * number);
    let r = &mut random;
    let (geometry, volume) = geometry_and_volume(r);
    let calls = if r.percent(6) {
        inspections(r, &geometry, &volume)
    } else {
        let altered = r.percent(40);
        calls(r, number, geometry, &volume, altered)
    };
    let script = Script { geometry, volume, calls, bad: false };
    if r.percent(6) {
        bad_script(r, &script)
    } else {
        script.encode()
    }
}

pub fn geometry_and_volume(r: &mut Random) -> (Geometry, Vec<u8>) {
    let mut geometry = geometry(r);
    // Few volumes are too long for a script.
    while geometry.volume_bytes() > LARGEST_VOLUME && r.percent(90) {
        geometry = wide_geometry(r);
    }
    let contents = contents(r);
    let mut volume = valid_image(r, geometry, contents);
    let fault = r.weighted(&[
        (75, Fault::None),
        (7, Fault::NearlyValid),
        (7, Fault::Damaged),
        (1, Fault::Noise),
        (5, Fault::Length),
        (5, Fault::Geometry),
    ]);
    match fault {
        Fault::None => {}
        Fault::NearlyValid => alter_one_byte(r, &geometry, &mut volume),
        Fault::Damaged => {
            for _ in 0..r.between(1, 4) {
                let (offset, bytes) = alteration(r, &geometry, &volume, None);
                lay(&mut volume, offset, &bytes);
            }
        }
        Fault::Noise => r.fill(&mut volume),
        Fault::Length => make_length_wrong(r, &mut volume, LARGEST_VOLUME),
        Fault::Geometry => {
            geometry = wrong_geometry(r);
            if r.percent(60) {
                volume = image_of_wrong_geometry(r, &geometry, 300 * 1024);
            } else {
                volume.truncate(8 * 1024);
            }
        }
    }
    (geometry, volume)
}

fn alter_one_byte(r: &mut Random, geometry: &Geometry, volume: &mut [u8]) {
    if r.percent(40) {
        let at = r.below(geometry.slots() * SLOT);
        volume[start_of(geometry, at / RECORD) + at % RECORD] = r.byte();
        return;
    }
    let (offset, mut bytes) = alteration(r, geometry, volume, None);
    bytes.truncate(1);
    lay(volume, offset, &bytes);
}

/// The calls of a script, played on the model as they are chosen.
fn calls(r: &mut Random, number: u64, geometry: Geometry, volume: &[u8], altered: bool) -> Vec<Call> {
    let mut player = Player::new(geometry, volume.to_vec(), Way::Kept);
    let mut chooser = Chooser::new(Door::Replay, number);
    let mut calls = Vec::new();
    // The slot of the last touch, for some calls after it.
    let mut altered_slot = None;
    let length = number_of_calls(r);
    while calls.len() < length {
        let call = if calls.is_empty() && r.percent(80) {
            log_in_call(r)
        } else if player.drive.is_none() {
            reopening_call(r, &player, &mut chooser)
        } else {
            next_call(r, &player, &mut chooser, altered, altered_slot)
        };
        let line = player.play(&call);
        chooser.saw(call.function, line.answer, line.control.as_deref().unwrap_or(&[]));
        if let Some((offset, _)) = call.touched() {
            altered_slot = Some(slot_at(&seen(&geometry), offset));
        } else if r.percent(12) {
            altered_slot = None;
        }
        calls.push(call);
    }
    calls
}

/// Log-in upon log-in, each after one alteration that is then taken back.
fn inspections(r: &mut Random, geometry: &Geometry, volume: &[u8]) -> Vec<Call> {
    let mut calls = Vec::new();
    for _ in 0..r.between(5, 20) {
        let (offset, bytes) = alteration(r, &seen(geometry), volume, None);
        let before: Vec<u8> = volume.iter().copied().skip(offset).take(bytes.len()).collect();
        calls.extend([Call::touch(offset, &bytes), log_in_call(r), Call::touch(offset, &before)]);
    }
    calls
}

/// Mostly 10 to 60.
fn number_of_calls(r: &mut Random) -> usize {
    match r.below(100) {
        0..=1 => r.below(4),
        2 => r.between(100, 400),
        _ => r.between(10, 60),
    }
}

/// The next call where the drive is open.
fn next_call(
    r: &mut Random,
    player: &Player,
    chooser: &mut Chooser,
    altered: bool,
    altered_slot: Option<usize>,
) -> Call {
    let state = player.drive.as_ref().expect("the drive is open");
    let log_in = match altered_slot {
        _ if state.protected => 10,
        Some(_) => 6,
        None => 1,
    };
    if r.percent(log_in) {
        return log_in_call(r);
    }
    if altered && r.percent(12) {
        return touch_call(r, player);
    }
    let volume = logical(&player.geometry, &player.volume);
    let geometry = player.geometry.straight();
    let view = View { geometry, volume: &volume, user: state.user, altered: altered_slot };
    chooser.next(r, &view, &|call| player.clone().play(call).answer)
}

/// The next call where the drive is closed: mostly log-in, after a repair if
/// the image needs one.
fn reopening_call(r: &mut Random, player: &Player, chooser: &mut Chooser) -> Call {
    let Player { geometry, volume, .. } = player;
    let right = geometry.within_rules() && volume.len() == geometry.volume_bytes();
    if !right && r.percent(15) {
        return touch_call(r, player);
    }
    if r.percent(25) || (!right && r.percent(60)) {
        let seen = seen(geometry);
        let volume = &logical(&seen, volume);
        return chooser.any(r, &View { geometry: seen.straight(), volume, user: 0, altered: None });
    }
    if right && r.percent(70) {
        if let Some(slot) = lowest_bad_slot(geometry, volume) {
            return Call::touch(start_of(geometry, slot * SLOT / RECORD) + slot * SLOT % RECORD, &[EMPTY]);
        }
    }
    log_in_call(r)
}

/// A geometry within the rules to look at a volume with.
fn seen(geometry: &Geometry) -> Geometry {
    if geometry.within_rules() {
        *geometry
    } else {
        Geometry::new(1024, 8, 1)
    }
}

/// Now and then with bytes that are not lent to it.
fn log_in_call(r: &mut Random) -> Call {
    let control = if r.percent(10) { r.bytes(36) } else { Vec::new() };
    let buffer = if r.percent(10) { r.bytes(128) } else { Vec::new() };
    Call { function: r.pick(&LOG_INS), parameter: r.byte(), control, buffer }
}

fn touch_call(r: &mut Random, player: &Player) -> Call {
    let mut call = match r.below(100) {
        // Too short for an offset: nothing is laid.
        0..=2 => {
            let control = r.bytes_of(&[0, 1, 2]);
            Call { function: TOUCH, parameter: 0, control, buffer: Vec::new() }
        }
        // At the end and beyond it.
        3..=12 => {
            let offset = player.volume.len() + r.below(40);
            let bytes = r.bytes_of(&[0, 1, 30, 100, 252]);
            Call::touch(offset.saturating_sub(20), &bytes)
        }
        13 => Call::touch(r.pick(&[0xFF_FFFF, 0x10_0000, 0xFF_FF00]), &[1, 2, 3]),
        _ => {
            let user = player.drive.as_ref().map(|state| state.user);
            let (offset, bytes) = alteration(r, &seen(&player.geometry), &player.volume, user);
            Call::touch(offset, &bytes)
        }
    };
    if r.percent(10) {
        // Never looked at.
        call.parameter = r.byte();
        call.buffer = r.bytes_of(&[1, 128, 300]);
    }
    call
}
