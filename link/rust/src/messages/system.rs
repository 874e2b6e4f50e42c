//! What a device tells of itself.

use crate::raw;

message! {
    /// The device has started.
    ///
    /// ```
    /// use yaqtumeer::Startup;
    ///
    /// assert_eq!(Startup::read(&[1, 0, 0, 0]), Ok(Startup { reserved: 1 }));
    /// ```
    #[derive(Eq, Hash)]
    Startup = 0xff00, "MSG_STARTUP" {
        /// Reserved.
        reserved: u32,
    }
}

message! {
    /// The device is running.
    ///
    /// ```
    /// use yaqtumeer::Heartbeat;
    ///
    /// let beat = Heartbeat::read(&[0, 0, 0, 0x80]).unwrap();
    /// assert!(beat.external_antenna() && !beat.system_error());
    /// ```
    #[derive(Eq, Hash)]
    Heartbeat = 0xffff, "MSG_HEARTBEAT" {
        /// Errors in the lowest three bits, the antenna in the highest.
        flags: u32,
    }
}

impl Heartbeat {
    /// Whether an error has occurred.
    ///
    /// ```
    /// assert!(yaqtumeer::Heartbeat { flags: 1 }.system_error());
    /// ```
    pub fn system_error(&self) -> bool {
        unsafe { raw::sbp_system_error(self.flags) }
    }

    /// Whether an input or output error has occurred.
    ///
    /// ```
    /// assert!(yaqtumeer::Heartbeat { flags: 2 }.io_error());
    /// ```
    pub fn io_error(&self) -> bool {
        unsafe { raw::sbp_io_error(self.flags) }
    }

    /// Whether an error has occurred in the signal processor (SwiftNAP).
    ///
    /// ```
    /// assert!(yaqtumeer::Heartbeat { flags: 4 }.nap_error());
    /// ```
    pub fn nap_error(&self) -> bool {
        unsafe { raw::sbp_nap_error(self.flags) }
    }

    /// Whether an external antenna is present.
    ///
    /// ```
    /// assert!(yaqtumeer::Heartbeat { flags: 0x8000_0000 }.external_antenna());
    /// ```
    pub fn external_antenna(&self) -> bool {
        unsafe { raw::sbp_external_antenna(self.flags) }
    }
}
