//! Maps that are not as they were drawn: one thing damaged, or rules broken on purpose.

use crate::answer::Refusal::{self, *};
use crate::answer::REFUSALS;
use crate::arguments::ADDRESSES;
use crate::arguments::{ENTRIES, PAIR};
use crate::maps::{pairs, Drawn};
use crate::mixed::Mixed;
use crate::plain::{decoded, Mode};

/// The rules of the map check, in the order of their numbers.
pub fn rules() -> impl Iterator<Item = Refusal> {
    let numbers = ImageSize as u8..=BadNext as u8;
    let of_maps = move |refusal: &Refusal| numbers.contains(&(*refusal as u8));
    REFUSALS.into_iter().filter(of_maps)
}

/// The map with a byte, a mark, an entry, the origin or a length changed.
pub fn damaged(drawn: &Drawn, mixed: &mut Mixed) -> Drawn {
    let mut drawn = drawn.clone();
    match mixed.below(8) {
        0 | 1 => *one(&mut drawn.image, mixed) = mixed.byte(),
        2 | 3 => {
            let mark = one(&mut drawn.marks, mixed);
            *mark = (*mark + 1 + mixed.below(3) as u8) % 4;
        }
        4 => *one(&mut drawn.entries, mixed) ^= 1 << mixed.below(8),
        5 => drawn.origin = drawn.origin.wrapping_add(mixed.one_of(&[1, 2, 0xFFFF])),
        6 => match mixed.below(3) {
            0 => resize(&mut drawn.image, mixed),
            1 => resize(&mut drawn.marks, mixed),
            _ => resize(&mut drawn.entries, mixed),
        },
        _ => cut(&mut drawn, mixed),
    }
    drawn
}

fn one<'a>(bytes: &'a mut [u8], mixed: &mut Mixed) -> &'a mut u8 {
    &mut bytes[mixed.below(bytes.len())]
}

/// A part with one byte more, or without its last one.
fn resize(part: &mut Vec<u8>, mixed: &mut Mixed) {
    match mixed.below(2) {
        0 => part.truncate(part.len() - 1),
        _ => part.push(mixed.below(3) as u8),
    }
}

/// Image and marks without their last bytes, of which up to three go.
fn cut(drawn: &mut Drawn, mixed: &mut Mixed) {
    let left = drawn.image.len().saturating_sub(1 + mixed.below(3));
    drawn.image.truncate(left);
    drawn.marks.truncate(left);
}

/// Rows that break a rule where they are put, with the marks that they have then. Those of 10 do so at the image's end alone, and
/// in a mode that refuses them.
const ROWS: [(Refusal, &[u8], &[u8]); 21] = [
    (Unfinished, &[0xDD], &[1]),
    (Unfinished, &[0xFD, 0x23], &[1, 2]),
    (Unfinished, &[0xDD, 0x66, 0x05], &[1, 2, 2]),
    (Unfinished, &[0xED, 0x00, 0xC9], &[1, 0, 1]),
    (Unfinished, &[0xFD, 0xCB, 0x05], &[1, 2, 2]),
    (Unfinished, &[0xDD, 0x36, 0x80], &[1, 2, 2]),
    (Unfinished, &[0x18], &[1]),
    (Unfinished, &[0xC3, 0x00], &[1, 2]),
    (Clipped, &[0x3E, 0x05], &[1, 0]),
    (Clipped, &[0x18, 0xFE], &[1, 1]),
    (Clipped, &[0x21, 0x34, 0x12], &[1, 0, 2]),
    (Clipped, &[0xCD, 0x34, 0x12], &[1, 2, 1]),
    (Clipped, &[0xDD, 0x36, 0x80, 0x07], &[1, 2, 2, 0]),
    (Stray, &[0xC9, 0x00], &[1, 2]),
    (Stray, &[0x18, 0xFE, 0x00], &[1, 2, 2]),
    (Stray, &[0xC9, 0x00, 0x00], &[1, 0, 2]),
    (Stray, &[0xC9, 0x00, 0x00, 0x00], &[1, 0, 0, 2]),
    (BadNext, &[0x00, 0x00], &[1, 0]),
    (BadNext, &[0x18, 0x01, 0xC9, 0xC9], &[1, 2, 1, 0]),
    (BadNext, &[0xDD, 0xC3, 0x00, 0x00], &[1, 2, 2, 2]),
    (BadNext, &[0xED, 0xB0, 0xC9], &[1, 2, 0]),
];

/// Breaks a rule in one of the ways that there are, somewhere in the map. What was broken before may be mended by that.
pub fn break_rule(mode: Mode, rule: Refusal, drawn: &mut Drawn, mixed: &mut Mixed) {
    match rule {
        ImageSize => break_image_size(drawn, mixed),
        MarkSize => resize(&mut drawn.marks, mixed),
        EntryCount => break_entry_count(&mut drawn.entries, mixed),
        MarkValue => *one(&mut drawn.marks, mixed) = mixed.one_of(&[3, 4, 0x81, 0xFF]),
        EntryNotStart => add_entry(drawn, mixed),
        _ => put_row(mode, rule, drawn, mixed),
    }
}

fn break_image_size(drawn: &mut Drawn, mixed: &mut Mixed) {
    match mixed.below(4) {
        0 => drawn.image.clear(),
        _ => drawn.origin = (ADDRESSES - drawn.image.len() + 1) as u16,
    }
}

/// Half a pair less, no entries, or so many that they are one too many.
fn break_entry_count(entries: &mut Vec<u8>, mixed: &mut Mixed) {
    match mixed.below(3) {
        0 => entries.truncate(entries.len().saturating_sub(1)),
        1 => entries.clear(),
        _ => {
            let over = entries.iter().copied().cycle();
            *entries = over.take(PAIR * (ENTRIES + 1)).collect();
        }
    }
}

/// An entry more somewhere in the list: next to the image, or anywhere in it, where it may not be a start.
fn add_entry(drawn: &mut Drawn, mixed: &mut Mixed) {
    let at = PAIR * mixed.below(drawn.entries.len() / PAIR + 1);
    let way = match mixed.below(4) {
        0 => 0xFFFF,
        1 => drawn.image.len(),
        _ => mixed.below(drawn.image.len()),
    };
    let entry = drawn.origin.wrapping_add(way as u16);
    drawn.entries.splice(at..at, pairs(&[entry]));
}

fn put_row(mode: Mode, rule: Refusal, drawn: &mut Drawn, mixed: &mut Mixed) {
    let breaks = |row: &[u8]| rule != Unfinished || decoded(mode, row).is_err();
    let rows = ROWS.iter().filter(|(broken, ..)| *broken == rule);
    let rows: Vec<_> = rows.filter(|(_, row, _)| breaks(row)).collect();
    let (_, row, marks) = mixed.one_of(&rows);
    let last = drawn.image.len().saturating_sub(row.len());
    let at = match rule {
        Unfinished => last,
        _ => mixed.below(last + 1),
    };
    overwrite(&mut drawn.image, at, row);
    overwrite(&mut drawn.marks, at, marks);
}

fn overwrite(part: &mut [u8], at: usize, bytes: &[u8]) {
    for (place, byte) in part.iter_mut().skip(at).zip(bytes) {
        *place = *byte;
    }
}

#[cfg(test)]
mod tests {
    use super::*;
    use crate::maps::grown::{grown, RET};
    use crate::plain::marking::holding;
    use crate::plain::MODES;

    /// A map of RETs and data that passes.
    fn map(mode: Mode) -> Drawn {
        let mut image = vec![RET; 16];
        image[8..].fill(0);
        grown(mode, image, 0x1000, &[0x1000, 0x1004, 0x1007])
    }

    fn holds(mode: Mode, rule: Refusal, drawn: &Drawn) -> bool {
        let map = drawn.map();
        let mut holding = holding(mode, &map);
        holding.any(|refused| refused.refusal == rule)
    }

    /// Each of a hundred maps breaks the rule, but that an entry more may be a start.
    #[test]
    fn each_rule_is_broken() {
        let mut mixed = Mixed::new(0x5A80_0009);
        let rules = MODES.map(|mode| rules().map(move |rule| (mode, rule)));
        for (mode, rule) in rules.into_iter().flatten() {
            let broken = (0..100).filter(|_| {
                let mut drawn = map(mode);
                break_rule(mode, rule, &mut drawn, &mut mixed);
                holds(mode, rule, &drawn)
            });
            let broken = broken.count();
            let by_luck = rule == EntryNotStart && (60..100).contains(&broken);
            assert!(broken == 100 || by_luck, "{rule:?} {broken}");
        }
    }

    /// Any two rules can hold together, and do so here.
    #[test]
    fn pairs_of_rules_are_broken() {
        MODES.into_iter().for_each(pairs_are_broken_in);
    }

    fn pairs_are_broken_in(mode: Mode) {
        let mut mixed = Mixed::new(0x5A80_0081);
        for (first, second) in rules().flat_map(|a| rules().map(move |b| (a, b))) {
            let broken = (0..100).filter(|_| {
                let mut drawn = map(mode);
                break_rule(mode, first, &mut drawn, &mut mixed);
                break_rule(mode, second, &mut drawn, &mut mixed);
                holds(mode, first, &drawn) && holds(mode, second, &drawn)
            });
            let broken = broken.count();
            assert!(broken > 20, "{first:?} {second:?} {broken}");
        }
    }

    /// What is damaged, a length or what stands there, is found among all parts.
    #[test]
    fn damages() {
        let (right, mut mixed) = (map(Mode::Rust), Mixed::new(0x5A80_0008));
        let mut met = [0; 8];
        for _ in 0..1000 {
            let wrong = damaged(&right, &mut mixed);
            let resized = |part: fn(&Drawn) -> &Vec<u8>| part(&wrong).len() != part(&right).len();
            let image = resized(|map| &map.image);
            let marks = resized(|map| &map.marks);
            let entries = resized(|map| &map.entries);
            let damages = [
                image && !marks,
                marks && !image,
                image && marks,
                entries,
                !image && wrong.image != right.image,
                !marks && wrong.marks != right.marks,
                !entries && wrong.entries != right.entries,
                wrong.origin != right.origin,
            ];
            for (count, damage) in met.iter_mut().zip(damages) {
                *count += damage as usize;
            }
        }
        assert!(met.iter().all(|count| *count > 20), "{met:?}");
    }
}
