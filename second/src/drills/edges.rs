//! The named edges of the makers, each with its reason.

use crate::drills::{stored, Stored};
use crate::make;

pub fn all() -> Vec<Stored> {
    let known = make::edges::all().into_iter();
    known
        .map(|(name, bytes)| stored(name, why(name), bytes))
        .collect()
}

fn why(name: &str) -> &'static str {
    let reason = WHY.iter().find(|(known, _)| *known == name);
    reason.map_or("", |(_, why)| why)
}

const WHY: [(&str, &str); 91] = [
    ("p1-one-node", "one node, destination 0, no link is opened"),
    ("p1-no-node", "no node is 2"),
    (
        "p2-64-nodes",
        "64 nodes are opened; node 64 is none of them",
    ),
    ("p2-65-nodes", "65 nodes are 2"),
    (
        "p3-destination-last",
        "the last node may be the destination",
    ),
    (
        "p3-destination-is-count",
        "a destination equal to the node count is 2",
    ),
    ("p4-self-link", "a link from a node to itself is 3, place 0"),
    ("p4-second-link-self", "the place of 3 is the link's number"),
    ("p4-last-node", "a link may name the last node"),
    ("p4-names-no-node", "a link that names no node is 3"),
    ("p5-two-ring", "links 0 to 1 and 1 to 0 are 4"),
    ("p5-parallel", "a link twice is no closed walk"),
    ("p5-three-ring", "a closed walk over three nodes is 4"),
    (
        "p5-three-chain",
        "three links between three nodes without a closed walk",
    ),
    (
        "p5-64-chain",
        "a walk through all 64 nodes that is not closed",
    ),
    ("p5-64-ring", "a closed walk through all 64 nodes"),
    (
        "p5-ring-apart",
        "a closed walk far from the destination is 4 too",
    ),
    ("256-links", "256 links are opened"),
    ("257-links", "257 links are 2"),
    (
        "257-links-cut",
        "2 for 257 links comes before the links are read",
    ),
    ("256-links-cut", "256 links of which none stands there: 11"),
    ("order-2-before-3", "2 before 3"),
    ("order-3-before-4", "3 before 4, at a later link"),
    (
        "order-3-first-link",
        "3 has the first such link, whichever way it is one",
    ),
    ("p6-127", "127 is one byte"),
    ("p6-128", "128 is two bytes"),
    ("p6-16383", "the largest number of two bytes"),
    ("p6-16384", "the least number of three bytes"),
    ("p7-80-00", "two bytes where one would do"),
    ("p7-80-80-00", "three bytes where one would do"),
    ("p7-ff-ff-7f", "the largest number is read, and is no node"),
    ("p7-ff-ff-ff-01", "a fourth byte needed"),
    ("p7-header-nodes", "a node count that is not shortest"),
    (
        "p7-header-destination",
        "a destination that is not shortest",
    ),
    ("p7-header-links", "a link count that needs a fourth byte"),
    ("p7-header-largest", "the largest number as node count is 2"),
    ("empty", "an empty file is 11, place 0"),
    ("header-1-byte", "the destination is missing"),
    ("header-2-bytes", "the link count is missing"),
    ("header-cut-inside", "the link count is cut short"),
    ("header-links-missing", "a link's first node is missing"),
    ("header-link-half", "a link's second node is missing"),
    ("header-link-cut", "a link's second node is cut short"),
    ("header-whole", "a header and no event"),
    (
        "order-11-before-2",
        "a spoilt link count before too many nodes",
    ),
    (
        "order-11-before-2-missing",
        "a missing link count before no nodes",
    ),
    (
        "order-2-before-link-11",
        "too many nodes before a spoilt link",
    ),
    (
        "order-2-before-missing-links",
        "no such destination before missing links",
    ),
    (
        "order-link-11-before-3",
        "a missing link before a link to itself",
    ),
    (
        "order-link-11-before-4",
        "a spoilt link before a closed walk",
    ),
    ("kind-0", "kind 0 is unknown"),
    ("kind-5", "kind 5 is unknown"),
    ("kind-128", "a kind of two bytes is unknown"),
    ("kind-not-shortest", "kind 1 in two bytes is not shortest"),
    ("kind-fourth-byte", "a kind that needs a fourth byte"),
    ("kind-cut", "a kind cut short"),
    (
        "kind-5-alone",
        "an unknown kind without an argument has its own place",
    ),
    (
        "argument-missing",
        "a missing argument has the file's length as place",
    ),
    ("argument-cut", "an argument cut after one byte"),
    ("argument-cut-at-two", "an argument cut after two bytes"),
    ("whole", "a file that ends between events"),
    ("send-last-node", "a send at the last node"),
    ("send-no-node", "a send past the last node is 6"),
    (
        "deliver-last-lane",
        "a delivery on the last lane, empty, and on the one before",
    ),
    ("deliver-no-lane", "a delivery past the last lane is 6"),
    (
        "lose-last-lane",
        "a loss on the last lane, empty, and on the one before",
    ),
    ("lose-no-lane", "a loss past the last lane is 6"),
    ("fail-last-link", "the last link fails, and once more is 7"),
    ("fail-no-link", "a failure past the last link is 6"),
    (
        "down-7-before-8",
        "both lanes of a link that is down are 7, not 8",
    ),
    (
        "empty-lanes-8",
        "both lanes of a link without a packet are 8",
    ),
    (
        "p8-lone-node",
        "a send at a node without a link is stranded",
    ),
    (
        "p8-all-failed",
        "a send at a node whose links are down is stranded, no turn",
    ),
    (
        "p10-partial-turn",
        "an end turned In by news is not turned with the marked one",
    ),
    (
        "p11-all-turn",
        "all ends In by news: all turn, no mark is left",
    ),
    ("p12-d1", "D1"),
    (
        "destination-all-in",
        "the destination delivers and never turns",
    ),
    (
        "destination-takes-news",
        "news turns an end of the destination In",
    ),
    ("p9-linked", "257th in flight is 9"),
    (
        "p9-destination",
        "a send at the destination with 256 in flight",
    ),
    (
        "p9-lone",
        "a send at a lone node with 256 in flight is stranded",
    ),
    ("p9-no-node", "6 before 9"),
    (
        "p9-after-delivery",
        "a delivery frees a slot, one and no more",
    ),
    ("p9-after-loss", "a loss frees a slot, one and no more"),
    ("p9-after-failure", "a failure frees all its packets' slots"),
    (
        "p9-full-deliver",
        "with 256 in flight packets are still passed on",
    ),
    ("size-65535", "one byte less than the limit"),
    (
        "size-65536",
        "a file of just the limit is read, and its last event is cut",
    ),
    ("size-65537", "one byte over the limit is refused"),
    (
        "size-65537-bad",
        "over the limit comes before what the bytes say",
    ),
    ("size-65536-bad", "at the limit what the bytes say decides"),
];
