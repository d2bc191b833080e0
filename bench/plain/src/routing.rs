//! The message graph of Figure 2 of document 000.

use interface::NO_NEIGHBOUR;

/// The gateways that one hears and tells, in Figure 2's order.
pub struct Arcs {
    pub from: [u16; 2],
    pub to: [u16; 2],
}

const NONE: [u16; 2] = [NO_NEIGHBOUR; 2];

/// The arcs of gateway `own` of `gateways`, 1 to 65,535; `None` outside that range.
pub fn arcs(gateways: u32, own: u32) -> Option<Arcs> {
    if gateways == 0 || gateways > 65_535 || own >= gateways {
        return None;
    }
    let (nodes, own) = (gateways as i32, own as i32);
    let (middle_0, middle_1) = middles(nodes);
    let mirrored = nodes - own - 1;
    Some(Arcs {
        from: from(nodes, own, middle_0, middle_1, mirrored),
        to: to(nodes, own, middle_0, middle_1, mirrored),
    })
}

/// Where the first tree ends and the second begins.
fn middles(nodes: i32) -> (i32, i32) {
    let middle_0 = (nodes - 1) / 2;
    let middle_1 = if nodes & 1 != 0 { middle_0 } else { middle_0 + 1 };
    let mut full = 1;
    while full < middle_0 + 1 {
        full = 2 * full + 1;
    }
    let pen_0 = full / 2 - 1;
    let pen_1 = nodes - pen_0 - 1;
    if pen_1 <= 2 * pen_0 + 3 {
        return (pen_1 - 1, pen_0 + 1);
    }
    (middle_0, middle_1)
}

fn from(nodes: i32, own: i32, middle_0: i32, middle_1: i32, mirrored: i32) -> [u16; 2] {
    let in_0 = 2 * own - nodes;
    if own == 0 {
        NONE
    } else if own <= middle_0 {
        one((own - 1) / 2)
    } else if middle_1 < in_0 {
        [in_0 as u16, (in_0 - 1) as u16]
    } else if middle_1 == in_0 {
        one(in_0)
    } else {
        one(mirrored)
    }
}

fn to(nodes: i32, own: i32, middle_0: i32, middle_1: i32, mirrored: i32) -> [u16; 2] {
    let out_0 = 2 * own + 1;
    if own == nodes - 1 {
        NONE
    } else if own >= middle_1 {
        one((nodes + own + 1) / 2)
    } else if middle_0 > out_0 {
        [out_0 as u16, (out_0 + 1) as u16]
    } else if middle_0 == out_0 {
        one(out_0)
    } else {
        one(mirrored)
    }
}

fn one(gateway: i32) -> [u16; 2] {
    [gateway as u16, NO_NEIGHBOUR]
}

/// How many of the two there are.
pub fn count(gateways: [u16; 2]) -> usize {
    gateways.iter().filter(|&&gateway| gateway != NO_NEIGHBOUR).count()
}
