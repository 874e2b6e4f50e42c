//! 003 section 6.5.

use super::fixed::{any_value, fixed};

fixed!(Startup, 0xFF00, 4, { reserved: u32 }, any_value);

fixed!(Heartbeat, 0xFFFF, 4, { flags: u32 }, any_value);
