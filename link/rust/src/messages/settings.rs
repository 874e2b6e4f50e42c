//! Settings of a device.

message! {
    /// Asks the device to keep its settings.
    ///
    /// ```
    /// use yaqtumeer::{SettingsSave, Writer};
    ///
    /// let frame = SettingsSave {}.frame(Writer::new(1228)).unwrap();
    /// assert_eq!(frame[..6], [0x55, 0xa1, 0x00, 0x42, 0x00, 0]);
    /// ```
    #[derive(Eq, Hash)]
    SettingsSave = 0x00a1, "MSG_SETTINGS_SAVE" {}
}

message! {
    /// Asks for a setting by its index.
    ///
    /// ```
    /// use yaqtumeer::ReadByIndexReq;
    ///
    /// assert_eq!(ReadByIndexReq::read(&[7, 1]), Ok(ReadByIndexReq { index: 263 }));
    /// ```
    #[derive(Eq, Hash)]
    ReadByIndexReq = 0x00a2, "MSG_SETTINGS_READ_BY_INDEX_REQ" {
        /// Which, from 0.
        index: u16,
    }
}

message! {
    /// Says that there is no further setting.
    ///
    /// ```
    /// use yaqtumeer::ReadByIndexDone;
    ///
    /// assert_eq!(ReadByIndexDone::read(&[]), Ok(ReadByIndexDone {}));
    /// ```
    #[derive(Eq, Hash)]
    ReadByIndexDone = 0x00a6, "MSG_SETTINGS_READ_BY_INDEX_DONE" {}
}
