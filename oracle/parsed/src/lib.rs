//! The original's recovery.rs once more, as it is, with a `parse_audit_events` that lends events which stand parsed: so recovery is timed without its parsing, as
//! validation is.

extern crate nosleep as std;

include!(concat!(env!("OUT_DIR"), "/root.rs"));

pub use rebalancer::{config, diff, error, target};

pub mod audit {
    pub use rebalancer::audit::*;

    use crate::error::Result;
    use std::cell::Cell;
    use std::path::Path;

    thread_local! {
        static LENT: Cell<&'static [AuditEvent]> = const { Cell::new(&[]) };
    }

    /// From here on `parse_audit_events` gives these events, in this thread.
    pub fn lend(events: &'static [AuditEvent]) {
        LENT.set(events);
    }

    pub fn parse_audit_events(_: &Path) -> Result<&'static [AuditEvent]> {
        Ok(LENT.get())
    }
}
