//! The message graph: Figure 2 of document 000, with its names, in signed integers.

/// The largest number of gateways that routing is given for.
pub const MAX_NODES: i32 = 65_535;

/// A gateway's arcs in Figure 2's order: it hears `from` and tells `to`.
#[derive(Debug, PartialEq, Eq)]
pub struct Neighbours {
    pub from: Vec<i32>,
    pub to: Vec<i32>,
}

/// Where the two trees end: the first is 0 to `Mid0`, the second `Mid1` to N - 1.
#[allow(non_snake_case)]
struct Middle {
    Mid0: i32,
    Mid1: i32,
    /// The two trees share the bottom row.
    shared: bool,
}

/// The neighbours of gateway `own` among `nodes`; `None` (answer 8) for numbers outside their range.
pub fn neighbours(nodes: i32, own: i32) -> Option<Neighbours> {
    let in_range = (1..=MAX_NODES).contains(&nodes) && (0..nodes).contains(&own);
    in_range.then(|| gvtcfg(nodes, own))
}

/// All arcs of `nodes` gateways, by from and then to; `None` (answer 8) outside 1 to 65,535.
pub fn arcs(nodes: i32) -> Option<Vec<(i32, i32)>> {
    if !(1..=MAX_NODES).contains(&nodes) {
        return None;
    }
    let mut arcs = Vec::new();
    for own in 0..nodes {
        let to = neighbours(nodes, own)?.to;
        arcs.extend(to.into_iter().map(|other| (own, other)));
    }
    arcs.sort_unstable();
    Some(arcs)
}

/// The two trees of `nodes` gateways share the bottom row.
pub fn shared(nodes: i32) -> bool {
    middle(nodes).shared
}

/// Messages of one round: a Start and an Lvt on each arc, an Update to each gateway but 0.
pub fn round_messages(nodes: i32, arc_count: usize) -> usize {
    2 * arc_count + nodes as usize - 1
}

/// The first half of Figure 2: what depends on the number of gateways alone.
#[allow(non_snake_case)]
fn middle(numNodes: i32) -> Middle {
    let Mid0 = (numNodes - 1) / 2;
    let Mid1 = if numNodes & 0x01 != 0 { Mid0 } else { Mid0 + 1 };

    let mut pen0 = 1;
    while pen0 < Mid0 + 1 {
        pen0 = 2 * pen0 + 1;
    }
    pen0 = pen0 / 2 - 1;
    let pen1 = numNodes - pen0 - 1;

    let shared = pen1 <= 2 * pen0 + 3;
    if shared {
        return Middle { Mid0: pen1 - 1, Mid1: pen0 + 1, shared };
    }
    Middle { Mid0, Mid1, shared }
}

/// Figure 2 for gateway `myNum` of `numNodes`.
#[allow(non_snake_case)]
fn gvtcfg(numNodes: i32, myNum: i32) -> Neighbours {
    let Middle { Mid0, Mid1, .. } = middle(numNodes);

    // matching node on other tree
    let myInv = numNodes - myNum - 1;

    // for binary tree with root 0: children and parent
    let Out0 = 2 * myNum + 1;
    let Out1 = Out0 + 1;
    let OutFrom = (myNum - 1) / 2;

    // for binary tree with root numNodes - 1: children and parent
    let In0 = 2 * myNum - numNodes;
    let In1 = In0 - 1;
    let InTo = (numNodes + myNum + 1) / 2;

    let from = if myNum == 0 {
        vec![]
    } else if myNum <= Mid0 {
        vec![OutFrom]
    } else if Mid1 <= In1 {
        vec![In0, In1]
    } else if Mid1 == In0 {
        vec![In0]
    } else {
        vec![myInv]
    };

    let to = if myNum == numNodes - 1 {
        vec![]
    } else if myNum >= Mid1 {
        vec![InTo]
    } else if Mid0 >= Out1 {
        vec![Out0, Out1]
    } else if Mid0 == Out0 {
        vec![Out0]
    } else {
        vec![myInv]
    };

    Neighbours { from, to }
}

#[cfg(test)]
mod tests {
    use super::*;

    fn from(nodes: i32, own: i32) -> Vec<i32> {
        neighbours(nodes, own).unwrap().from
    }

    fn to(nodes: i32, own: i32) -> Vec<i32> {
        neighbours(nodes, own).unwrap().to
    }

    fn round(nodes: i32) -> usize {
        round_messages(nodes, arcs(nodes).unwrap().len())
    }

    #[test]
    fn small_forecasts() {
        assert_eq!(arcs(1), Some(vec![]));
        assert_eq!(round(1), 0);
        assert_eq!(arcs(2), Some(vec![(0, 1)]));
        assert_eq!(round(2), 3);
        assert_eq!(arcs(4), Some(vec![(0, 1), (0, 2), (1, 3), (2, 3)]));
        assert_eq!(round(4), 11);
    }

    #[test]
    fn ten_shares_its_row_and_eleven_does_not() {
        assert_eq!(from(10, 3), [1]);
        assert_eq!(to(10, 3), [7]);
        assert_eq!(to(11, 3), [7]);
        assert!(shared(10));
        assert!(!shared(11));
        let Middle { Mid0, Mid1, .. } = middle(11);
        assert_eq!((Mid1, Mid0), (5, 5), "only gateway 5 is in both trees");
    }

    #[test]
    fn shared_rows_are_those_of_document_01() {
        assert!(shared(22));
        assert!(!shared(23));
        for nodes in 1..=MAX_NODES {
            let expected = (0..16).any(|k| (2 << k) - 1 <= nodes && nodes <= 3 * (1 << k) - 2);
            assert_eq!(shared(nodes), expected, "{nodes} gateways");
        }
    }

    #[test]
    fn numbers_outside_their_range_are_refused() {
        for (nodes, own) in [(0, 0), (-1, 0), (65_536, 0), (5, 5), (5, -1), (1, 1)] {
            assert_eq!(neighbours(nodes, own), None);
        }
        assert_eq!(arcs(0), None);
        assert_eq!(arcs(65_536), None);
        assert!(neighbours(65_535, 65_534).is_some());
    }

    #[test]
    fn from_and_to_name_the_same_arcs() {
        for nodes in (1..=400).chain([65_534, 65_535]) {
            let told = arcs(nodes).unwrap();
            let mut heard: Vec<_> = (0..nodes)
                .flat_map(|own| from(nodes, own).into_iter().map(move |other| (other, own)))
                .collect();
            heard.sort_unstable();
            assert_eq!(told, heard, "{nodes} gateways");
            assert!(told.iter().all(|(from, to)| from < to));
            assert!(told.windows(2).all(|pair| pair[0] < pair[1]), "no arc twice");
            assert!(round_messages(nodes, told.len()) < 4 * nodes as usize);
        }
    }

    #[test]
    fn every_gateway_has_at_most_three_arcs() {
        for nodes in 1..=400 {
            for own in 0..nodes {
                let (from, to) = (from(nodes, own), to(nodes, own));
                assert!(from.len() + to.len() <= 3);
                assert_eq!(from.is_empty(), own == 0);
                assert_eq!(to.is_empty(), own == nodes - 1);
            }
        }
    }
}
