//! What a drawing's questions come down to: the top density and the answer set of each constraint.
use crate::net::{Net, Top};
use crate::{brute, cut};

/// Up to so many objects every set is tried.
pub const FEW_OBJECTS: usize = 12;

/// The top of each constraint: by trying every set where there are few objects, by cuts where there are many.
pub fn tops(net: &Net) -> Vec<Top> {
    if net.objects.len() <= FEW_OBJECTS {
        brute::tops(net)
    } else {
        cut::tops(net)
    }
}

/// The lowest-numbered constraint whose top density is above K.
pub fn any_dense(tops: &[Top], k: i64) -> Option<usize> {
    tops.iter().position(|top| top.density > k)
}
