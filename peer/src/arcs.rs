//! The program `arcs` of document 01: what it reads and what it prints.

use crate::routing;

/// The longest input that can be taken: five digits and a line end.
pub const LONGEST_INPUT: usize = 6;

/// All that the program prints for its standard input.
pub fn listing(input: &[u8]) -> String {
    let Some(nodes) = number(input) else {
        return "8\n".into();
    };
    match routing::arcs(nodes) {
        None => "8\n".into(),
        Some(arcs) => table(nodes, &arcs),
    }
}

fn table(nodes: i32, arcs: &[(i32, i32)]) -> String {
    let count = arcs.len();
    let round = routing::round_messages(nodes, count);
    let mut text = format!("nodes {nodes} arcs {count} round {round}\n");
    for (from, to) in arcs {
        text += &format!("{from} {to}\n");
    }
    text
}

/// The number spelled by decimal digits without leading zeros and at most one line end after them.
fn number(input: &[u8]) -> Option<i32> {
    let digits = input.strip_suffix(b"\n").unwrap_or(input);
    if digits.first()? == &b'0' || !digits.iter().all(u8::is_ascii_digit) {
        return None;
    }
    std::str::from_utf8(digits).ok()?.parse().ok()
}

#[cfg(test)]
mod tests {
    use super::*;

    #[test]
    fn five_gateways() {
        let expected = "nodes 5 arcs 5 round 14\n0 1\n0 2\n1 3\n2 4\n3 4\n";
        assert_eq!(listing(b"5"), expected);
        assert_eq!(listing(b"5\n"), expected);
    }

    #[test]
    fn smallest_and_largest() {
        assert_eq!(listing(b"1\n"), "nodes 1 arcs 0 round 0\n");
        assert!(listing(b"65535\n").starts_with("nodes 65535 arcs "));
        assert_eq!(b"65535\n".len(), LONGEST_INPUT);
    }

    #[test]
    fn other_input_prints_8_alone() {
        let refused: [&[u8]; 21] = [
            b"",
            b"\n",
            b"0",
            b"05",
            b"+5",
            b"-5",
            b" 5",
            b"5 ",
            b"5\r\n",
            b"5\n\n",
            b"\n5",
            b"5x",
            b"x",
            b"5\n6",
            b"5\0",
            b"5.0",
            b"\xb5",
            b"65536",
            b"65541",
            b"4294967301",
            b"99999999999999999999",
        ];
        for input in refused {
            assert_eq!(listing(input), "8\n", "{input:?}");
        }
    }
}
