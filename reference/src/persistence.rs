//! Persistent channels: what waits in a step is there in the next one.

use crate::signals::Channel;

/// An offer that was not taken is offered with the same colour in the next step, and a take without
/// an offer is there in the next step.
pub fn persists(before: Channel, after: Channel) -> bool {
    let offer_stays = match before.offer_not_taken() {
        Some(colour) => after.offer == Some(colour),
        None => true,
    };
    let take_stays = after.take || !before.take_without_offer();
    offer_stays && take_stays
}
