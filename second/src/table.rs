//! The table of kinds: which objects there are, which constraints may stand between them, and what each weighs.

/// The table weight of an object kind.
pub fn object_weight(kind: u8) -> Option<u8> {
    match kind {
        1..=3 => Some(2), // point, line, circle of given radius
        4 | 5 => Some(3), // circle of free radius, rigid cluster
        _ => None,
    }
}

/// The table weight of a constraint kind between objects of two kinds, in either order.
pub fn constraint_weight(kind: u8, first: u8, second: u8) -> Option<u8> {
    match (kind, first.min(second), first.max(second)) {
        (1, 1 | 2, 1 | 2) => Some(1), // distance
        (2, 2, 2) => Some(1),         // angle
        (3, 1, 1) => Some(2),         // coincidence
        (4, 1, 2..=4) => Some(1),     // incidence
        (5, 2, 3 | 4) => Some(1),     // tangency of a line
        (5, 3 | 4, 3 | 4) => Some(1), // tangency of circles
        (6, 5, 5) => Some(2),         // shared point
        (7, 3 | 4, 3 | 4) => Some(2), // same centre
        _ => None,
    }
}
