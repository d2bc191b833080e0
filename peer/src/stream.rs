//! Streams of candidate frames: for each item one length byte, then that many bytes.

use crate::frame;

/// The items of a stream; `None` for a last item that is cut.
fn items(mut stream: &[u8]) -> Vec<Option<&[u8]>> {
    let mut items = Vec::new();
    while let Some((&length, rest)) = stream.split_first() {
        let split = rest.split_at_checked(length.into());
        items.push(split.map(|(item, _)| item));
        stream = split.map_or(&[], |(_, rest)| rest);
    }
    items
}

/// Puts an item at the end of a stream.
pub fn append(stream: &mut Vec<u8>, item: &[u8]) {
    stream.push(u8::try_from(item.len()).expect("an item has at most 255 bytes"));
    stream.extend(item);
}

/// What is printed for a last item that is cut.
const CUT: &str = "11 length: the input ends inside the item";

/// A line for each item: the number and the reason if it is refused, else its fields, and `differs`
/// if the frame that is written from them is another.
pub fn frame_lines(stream: &[u8]) -> String {
    let mut text = String::new();
    for item in items(stream) {
        text += &item.map_or(CUT.into(), item_line);
        text += "\n";
    }
    text
}

fn item_line(item: &[u8]) -> String {
    match frame::read(item) {
        Err(reason) => reason.to_string(),
        Ok(frame) if frame::write(&frame) == item => frame::line(&frame),
        Ok(frame) => frame::line(&frame) + " differs",
    }
}

#[cfg(test)]
mod tests {
    use super::*;

    const START: [u8; 4] = [7, 4, 1, 2];
    const RESTOCK: [u8; 10] = [79, 3, 6, 6, 0, 0, 0, 5, 1, 2];

    fn stream(items: &[&[u8]]) -> Vec<u8> {
        let mut stream = Vec::new();
        for item in items {
            append(&mut stream, item);
        }
        stream
    }

    #[test]
    fn a_line_for_each_item() {
        assert_eq!(frame_lines(&[]), "");
        let bytes = stream(&[&START, &[], &START[..3], &RESTOCK]);
        let lines = "4 1 2 0 0 0 0 -\n\
                     11 length: fewer than two bytes\n\
                     11 length: not that of the map\n\
                     3 6 6 5 0 258 0 -\n";
        assert_eq!(frame_lines(&bytes), lines);
    }

    #[test]
    fn reasons_in_words() {
        let failure = [&[63, 0, 5, 5, 0, 0, 0, 1, 5][..], b"L00000000000000001"].concat();
        let refused = |at: usize, value| {
            let mut item = failure.clone();
            item[at] = value;
            frame_lines(&stream(&[&item]))
        };
        assert_eq!(refused(1, 7), "1 map and kind: not in the table of kinds\n");
        assert_eq!(refused(0, 191), "11 length: not that of the map\n");
        assert_eq!(refused(26, 127), "12 lamp: a byte outside 33 to 126\n");
        assert_eq!(refused(2, 6), "1 gateway fields: they do not agree\n");
        let no_sense = [&[191], &failure[1..], &[0]].concat();
        assert_eq!(frame_lines(&stream(&[&no_sense])), "1 sense: not 1 to 3\n");
    }

    #[test]
    fn a_cut_item_is_refused() {
        let whole = stream(&[&START, &START]);
        let cut = "4 1 2 0 0 0 0 -\n11 length: the input ends inside the item\n";
        assert_eq!(frame_lines(&whole[..9]), cut);
        assert_eq!(frame_lines(&whole[..6]), cut);
        assert_eq!(frame_lines(&whole[..5]), "4 1 2 0 0 0 0 -\n");
        let lines = frame_lines(&[5, 7, 4, 1, 2]);
        assert_eq!(lines, format!("{CUT}\n"), "a whole frame in a cut item");
    }
}
