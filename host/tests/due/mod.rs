//! Calls with the answers due.

use crate::common::{Answer, Both, Call};

/// Makes calls, each with the answer due.
pub fn due(both: &mut Both, calls: impl IntoIterator<Item = (Call, Answer)>) {
    for (call, answer) in calls {
        assert_eq!(both.call(call), Ok(answer), "{call:?}");
    }
}
