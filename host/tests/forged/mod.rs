//! Tables that no calls have made, in each engine's form.

use crate::any::over_any;
use crate::common::{Both, Call};
use std::fmt::Arguments;

/// Makes each call over the buffers of each engine. Gives whether the tables are sound, on which the forms must agree.
pub fn over_each(both: &Both, calls: &[Call], told: Arguments) -> bool {
    let sound = over_any(&both.first, calls, told);
    assert_eq!(over_any(&both.plain, calls, told), sound, "{told}: whether the tables are sound in the plain form, and in the other");
    sound
}
