//! Document 01's examples that are not starred, in its order.

use crate::carrier::{self, End};
use crate::forecast;
use crate::record;
use crate::routing;
use crate::run::Run;
use crate::under_way::Wrong;

/// A line for each result.
pub fn lines() -> Result<String, Wrong> {
    let mut text = String::new();
    for nodes in [22, 23] {
        let shared = if routing::shared(nodes) { "shared" } else { "not shared" };
        text += &format!("{nodes} {shared}\n");
    }
    let mut run = Run::new(&forecast::example())?;
    let end = carrier::finish(&mut run)?;
    for (own, record) in run.records().iter().enumerate() {
        for done in record {
            text += &format!("{own} {}\n", record::line(done));
        }
    }
    if end == End::Finished && run.agrees() {
        text += "single queue agrees\n";
    }
    Ok(text)
}

#[cfg(test)]
mod tests {
    use super::*;

    #[test]
    fn the_last_example_has_3_and_91_events() {
        let text = lines().unwrap();
        let lines: Vec<&str> = text.lines().collect();
        assert_eq!(lines[..2], ["22 shared", "23 not shared"]);
        let of_gateway = |own| lines.iter().filter(|line| line.starts_with(own)).count();
        assert_eq!((of_gateway("0 "), of_gateway("1 ")), (3, 91));
        assert_eq!(lines[2], "0 0 0 0 10 0 0 0 L00000000000000001 0 1 0 0");
        assert_eq!(lines[4], "0 2 1 0 35 0 0 0 L00000000000000001 0 2 1 0");
        assert!(lines[95].ends_with(" 0 0 0 90"));
        assert_eq!(lines[96..], ["single queue agrees"]);
    }
}
