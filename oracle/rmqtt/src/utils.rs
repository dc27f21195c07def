//! Stand-in for rmqtt/src/utils.rs, which isn't in docs/src: a clock that the
//! caller sets, for each thread its own.

use std::cell::Cell;
use std::time::Duration;

thread_local! { static NOW: Cell<Duration> = const { Cell::new(Duration::ZERO) }; }

pub fn set_now(now: Duration) {
    NOW.set(now)
}

pub fn timestamp() -> Duration {
    NOW.get()
}
