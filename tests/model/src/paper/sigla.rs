//! Sigla by column ("02", x): one siglum replaced by another in one chapter of a
//! collation file, and which manuscript a siglum means. A siglum is two bytes.

use super::control::{self, CONTROL_BYTES, DR};
use super::directory::{any_read_only, entry_at, slot_of_group, slots_of_file};
use super::floppy::{lay_back, logical};
use super::geometry::{extent_of_record, RECORD};
use super::names::is_name;
use super::records::random_read;
use super::state::{Drive, State};

pub type Siglum = [u8; 2];

/// "Contents against the rules, a listed record that cannot be read, or chapter
/// not there".
const BAD_CONTENTS: u32 = 50;

/// A used place of the contents.
struct Chapter {
    number: u16,
    first: u32,
    count: u32,
}

/// How many records match, or the number of the refusal, which is given before
/// anything has been changed.
pub fn replace(
    drive: &Drive,
    volume: &mut [u8],
    control: &[u8],
    chapter: u16,
    old: Siglum,
    new: Siglum,
) -> Result<u32, u32> {
    let state = match drive {
        Some(state) if state.within_rules() => state,
        _ => return Err(32),
    };
    if volume.len() != state.geometry.volume_bytes() {
        return Err(33);
    }
    if !state.geometry.is_floppy() {
        return replace_in(state, volume, control, chapter, old, new);
    }
    let mut unskewed = logical(&state.geometry, volume).into_owned();
    let straight = State { geometry: state.geometry.straight(), ..state.clone() };
    let answer = replace_in(&straight, &mut unskewed, control, chapter, old, new);
    lay_back(volume, &unskewed);
    answer
}

/// The same on a volume in logical record order.
fn replace_in(
    state: &State,
    volume: &mut [u8],
    control: &[u8],
    chapter: u16,
    old: Siglum,
    new: Siglum,
) -> Result<u32, u32> {
    own_refusals(state, volume, control)?;
    let contents = record(state, volume, control, 0)?;
    let chapters = chapters(&contents).ok_or(BAD_CONTENTS)?;
    let listed: u32 = chapters.iter().map(|chapter| chapter.count).sum();
    for n in 1..=listed {
        record(state, volume, control, n).map_err(|_| BAD_CONTENTS)?;
    }
    let body = chapters.iter().find(|body| body.number == chapter).ok_or(BAD_CONTENTS)?;
    let places: Vec<usize> = (body.first..body.first + body.count)
        .map(|n| stands_at(state, volume, control, n))
        .filter(|&at| volume[at..at + 2] == old)
        .collect();
    for &at in &places {
        volume[at..at + 2].copy_from_slice(&new);
    }
    Ok(places.len() as u32)
}

/// The refusals of the file from 34 on before its record 0 is read: those of a
/// random read, 37 before 3 and 38 straight after it.
fn own_refusals(state: &State, volume: &[u8], control: &[u8]) -> Result<(), u32> {
    if control.len() != CONTROL_BYTES {
        return Err(34);
    }
    if control[DR] > 1 {
        return Err(42);
    }
    if !is_name(control::name(control)) {
        return Err(39);
    }
    if state.protected {
        return Err(37);
    }
    let file = slots_of_file(&state.geometry, volume, state.user, control::name(control));
    if file.is_empty() {
        return Err(3);
    }
    if any_read_only(volume, &file) {
        return Err(38);
    }
    Ok(())
}

/// Record n as a random read shows it; r2 is not 0 from 65,536 on.
fn record(state: &State, volume: &[u8], control: &[u8], n: u32) -> Result<Vec<u8>, u32> {
    if n >= 65536 {
        return Err(6);
    }
    let mut asked = control.to_vec();
    control::show_record(&mut asked, n);
    let mut bytes = vec![0; RECORD];
    random_read(state, volume, &mut asked, &mut bytes)?;
    Ok(bytes)
}

/// Where a record that can be read begins in the volume.
fn stands_at(state: &State, volume: &[u8], control: &[u8], n: u32) -> usize {
    let geometry = &state.geometry;
    let file = slots_of_file(geometry, volume, state.user, control::name(control));
    let slot = slot_of_group(geometry, volume, &file, geometry.group(extent_of_record(n)));
    let entry = entry_at(volume, slot.expect("the record was read"));
    geometry.record_begins(entry.map(geometry)[geometry.place(n)], n)
}

/// "Sixteen places of 8 bytes (chapter, first record, count, zero; 16 bits each,
/// low byte first), used ones first (chapters not 0 and all different, counts at
/// least 1) and the rest all zero. The bodies follow from record 1 without gaps."
fn chapters(contents: &[u8]) -> Option<Vec<Chapter>> {
    let used = contents.chunks(8).take_while(|place| place[..2] != [0, 0]).count();
    if contents[8 * used..].iter().any(|&byte| byte != 0) {
        return None;
    }
    let number = |place: &[u8], at: usize| u16::from_le_bytes([place[at], place[at + 1]]);
    let mut chapters: Vec<Chapter> = Vec::new();
    let mut next = 1;
    for place in contents.chunks(8).take(used) {
        let chapter = Chapter {
            number: number(place, 0),
            first: number(place, 2) as u32,
            count: number(place, 4) as u32,
        };
        let seen = chapters.iter().any(|other| other.number == chapter.number);
        if seen || chapter.first != next || chapter.count == 0 || number(place, 6) != 0 {
            return None;
        }
        next += chapter.count;
        chapters.push(chapter);
    }
    Some(chapters)
}

/// Which list, 0 own or 1 house, and where the thirty bytes of the name begin.
pub fn manuscript(siglum: Siglum, own: &[u8], house: &[u8]) -> Result<(u32, usize), u32> {
    let lists = [own, house];
    if lists.iter().any(|list| list.len() % 32 != 0) {
        return Err(52);
    }
    for (which, list) in lists.iter().enumerate() {
        if let Some(line) = list.chunks(32).position(|line| line[..2] == siglum) {
            return Ok((which as u32, 32 * line + 2));
        }
    }
    Err(51)
}
