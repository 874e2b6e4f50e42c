//! The three settings messages of document 01's table.

use super::fixed::{any_value, fixed};

fixed!(SettingsSave, 0x00A1, 0, {}, any_value);

fixed!(SettingsReadByIndexDone, 0x00A6, 0, {}, any_value);

fixed!(SettingsReadByIndexReq, 0x00A2, 2, { index: u16 }, any_value);
