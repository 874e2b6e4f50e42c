//! The version of the library that is linked.

use std::fmt;

use crate::raw;

/// A version: printed as `0.14.0`.
///
/// ```
/// let version = yaqtumeer::Version { major: 0, minor: 14, patch: 0 };
/// assert_eq!(version.to_string(), "0.14.0");
/// ```
#[derive(Clone, Copy, Debug, PartialEq, Eq, PartialOrd, Ord, Hash)]
pub struct Version {
    /// Counts what breaks a user.
    pub major: u32,
    /// Counts what is new.
    pub minor: u32,
    /// Counts what is mended.
    pub patch: u32,
}

impl fmt::Display for Version {
    fn fmt(&self, f: &mut fmt::Formatter<'_>) -> fmt::Result {
        write!(f, "{}.{}.{}", self.major, self.minor, self.patch)
    }
}

/// The version of the library that is linked.
///
/// ```
/// println!("yaqtumeer {}", yaqtumeer::version());
/// assert_eq!(yaqtumeer::version().to_string(), env!("CARGO_PKG_VERSION"));
/// ```
pub fn version() -> Version {
    parts(unsafe { raw::sbp_version() })
}

fn parts(told: u32) -> Version {
    Version {
        major: told / 10000,
        minor: told / 100 % 100,
        patch: told % 100,
    }
}

#[cfg(test)]
mod tests {
    use super::*;

    /// A version whose parts all have two digits, which the library's has not yet.
    #[test]
    fn parts_of_two_digits() {
        let told = parts(123456).to_string();
        assert!(told == "12.34.56", "differs: version: {told}");
    }
}
