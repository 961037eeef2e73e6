//! Reads the probing order, which the published list keeps private.
use super::MembershipList;

impl MembershipList {
    /// The position and the addresses in probing order.
    pub(crate) fn probing_order(&self) -> (usize, Vec<String>) {
        let order = self.index.index.try_read().expect("no call is under way");
        (self.index.pos(), order.clone())
    }
}
