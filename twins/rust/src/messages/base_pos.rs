//! The base station positions of 003 section 6.3.

use super::fixed::{any_value, fixed};
use super::Double;

fixed!(
    BasePosLlh, 0x0044, 24,
    { lat: Double, lon: Double, height: Double },
    any_value
);

fixed!(
    BasePosEcef, 0x0048, 24,
    { x: Double, y: Double, z: Double },
    any_value
);
