//! Ranges of numbers, such as addresses, that should not overlap.

/// A range of numbers, from its first to its last.
#[derive(Clone, Copy)]
pub(crate) struct Span {
    pub(crate) first: u64,
    pub(crate) last: u64,
    /// Where the table has it.
    pub(crate) offset: usize,
    /// What it belongs to.
    pub(crate) owner: u64,
}

impl Span {
    /// A number and this many that follow it, as far as there are some.
    pub(crate) fn of(first: u64, more: u64, offset: usize, owner: u64) -> Span {
        Span { first, last: first.saturating_add(more), offset, owner }
    }
}

/// The spans that begin within one that begins before them or with them, each after that one.
pub(crate) fn overlaps(spans: &mut [Span]) -> Vec<(Span, Span)> {
    spans.sort_by_key(|it| (it.first, it.offset));
    let mut found = Vec::new();
    let mut furthest: Option<Span> = None;
    for span in spans.iter() {
        if let Some(before) = furthest {
            if span.first <= before.last {
                found.push((before, *span));
            }
            if span.last <= before.last {
                continue;
            }
        }
        furthest = Some(*span);
    }
    found
}
