//! Sets the detector's state, so that the host can lend another wait record.
use super::{FailureDetector, FailureDetectorState};
use crate::core::transport::TransportLayer;

impl<T: TransportLayer> FailureDetector<T> {
    pub(crate) fn set_state(&self, state: FailureDetectorState) {
        *self.state.try_write().expect("no call is under way") = state;
    }
}
