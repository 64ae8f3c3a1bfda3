//! Programs that are wrong on purpose. Each differs from the right one at one
//! switch point in `events`, and must be told from it by made drills.

#[derive(Clone, Copy, Debug, PartialEq, Eq)]
pub enum Wrong {
    /// News flips the local bit too. "Only the remote bit flips then."
    FlipLocalOnNews,
    /// News empties the marks of the node.
    EmptyMarksOnNews,
    /// Every turn takes all live ends.
    TurnAll,
    /// The bounce is tested after the departure update, so that "a link just
    /// turned would look like a bounce".
    BounceAfterUpdate,
    /// Deliver and lose take the newest packet of the lane.
    NewestPacket,
    /// The packet takes the bit the sending end had before the update.
    BitBeforeUpdate,
    /// The destination runs the departure update too.
    DestinationTurns,
    /// The remote bit is not flipped by news, so the same turn of the
    /// neighbour is news again; step 1 is left out, or it would stop there.
    NewsTwice,
    /// After a turn the marks are emptied and not set anew, so the next turn
    /// takes every arrow where it should take some.
    MarksNotRenewed,
    /// A bounced packet falls through to a second send.
    BounceSentTwice,
    /// A slot once used is never used again: 9 by packets ever admitted.
    SlotsNotReused,
}

/// The program to run: the right one, or a wrong one.
pub type Program = Option<Wrong>;

pub const RIGHT: Program = None;

pub const ALL: [(Wrong, &str); 11] = [
    (Wrong::FlipLocalOnNews, "flip-local-on-news"),
    (Wrong::EmptyMarksOnNews, "empty-marks-on-news"),
    (Wrong::TurnAll, "turn-all"),
    (Wrong::BounceAfterUpdate, "bounce-after-update"),
    (Wrong::NewestPacket, "newest-packet"),
    (Wrong::BitBeforeUpdate, "bit-before-update"),
    (Wrong::DestinationTurns, "destination-turns"),
    (Wrong::NewsTwice, "news-twice"),
    (Wrong::MarksNotRenewed, "marks-not-renewed"),
    (Wrong::BounceSentTwice, "bounce-sent-twice"),
    (Wrong::SlotsNotReused, "slots-not-reused"),
];

pub fn named(name: &str) -> Option<Wrong> {
    ALL.iter()
        .find(|(_, known)| *known == name)
        .map(|(wrong, _)| *wrong)
}
