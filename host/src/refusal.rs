//! The numbers that calls answer where they turn something down, and what each means in a few words.

pub const FORM: u32 = 1;
pub const GATEWAY: u32 = 2;
pub const HOUR: u32 = 3;
pub const NO_ROOM: u32 = 5;
pub const NOTHING: u32 = 6;
pub const LENGTH: u32 = 11;
pub const LAMP: u32 = 12;

/// What the numbers mean, from 1 on.
const MEANINGS: [&str; 12] = [
    "form",
    "gateway number or addressee",
    "hour past the last hour",
    "round step out of turn",
    "too few places, output bytes or figures",
    "no unprocessed message or nothing to commit",
    "acknowledgment of nothing outstanding",
    "setting, memory length, reader or stock outside its range",
    "below the agreed time",
    "memory not sound",
    "length",
    "lamp",
];

/// A number and what it means, as the programs print it.
pub fn named(number: u32) -> String {
    let place = (number as usize).checked_sub(1);
    let meaning = place.and_then(|place| MEANINGS.get(place)).unwrap_or(&"no refusal");
    format!("{number} ({meaning})")
}

#[cfg(test)]
mod tests {
    use super::*;

    #[test]
    fn numbers_have_their_meanings() {
        let named_numbers = [
            (FORM, "1 (form)"),
            (GATEWAY, "2 (gateway number or addressee)"),
            (HOUR, "3 (hour past the last hour)"),
            (4, "4 (round step out of turn)"),
            (NO_ROOM, "5 (too few places, output bytes or figures)"),
            (NOTHING, "6 (no unprocessed message or nothing to commit)"),
            (7, "7 (acknowledgment of nothing outstanding)"),
            (8, "8 (setting, memory length, reader or stock outside its range)"),
            (9, "9 (below the agreed time)"),
            (10, "10 (memory not sound)"),
            (LENGTH, "11 (length)"),
            (LAMP, "12 (lamp)"),
        ];
        for (number, text) in named_numbers {
            assert_eq!(named(number), text);
        }
        for number in [0, 13, u32::MAX] {
            assert_eq!(named(number), format!("{number} (no refusal)"));
        }
    }
}
