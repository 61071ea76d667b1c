//! What a run of operations has seen, and what it must see for its verdict to say anything.
use crate::steps::REFUSALS;
use std::collections::BTreeMap;

/// How often each thing was seen.
pub type Seen = BTreeMap<String, u64>;

/// All that must be seen.
pub fn possible() -> Seen {
    let answers = REFUSALS.iter().flat_map(|(name, refusals)| {
        std::iter::once(&0).chain(refusals.iter()).map(move |answer| format!("{name}: {answer}"))
    });
    let maps = (0..4).map(|tables| format!("map made {tables} tables"));
    let refused = (0..3).map(|free| format!("map was refused with {free} free frames"));
    let others = [
        "give was refused the monitor's frame",
        "give was refused a table",
        "give was refused a page",
        "give was refused a table that drains",
        "give was refused a page that drains",
        "take left a page draining",
        "take left a page free",
        "a page was got back",
        "a guest's store: made",
        "a guest's store: not made",
        "a store by a kept translation: draining",
        "a store by a kept translation: mapped",
        "a store by a kept translation: no longer mapped",
        "what another guest stored: read",
    ];
    answers.chain(maps).chain(refused).chain(others.map(String::from)).map(|name| (name, 0)).collect()
}
