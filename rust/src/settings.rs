//! Saved exposure settings: eight, each under a version, to go back to.

use crate::Refusal;

/// The bytes of a setting, and of the messages that write one.
pub const SETTING: usize = 8;
pub const MESSAGES: usize = 18;

/// A frame rate that sensors have.
#[derive(Clone, Copy, PartialEq, Eq, Debug)]
pub enum Rate {
    PerSecond25 = 25,
    PerSecond30 = 30,
}

impl Rate {
    /// The rate of so many frames a second.
    pub fn of(frames: u8) -> Option<Rate> {
        [Rate::PerSecond25, Rate::PerSecond30].into_iter().find(|rate| *rate as u8 == frames)
    }
}

/// What each pixel is multiplied by. Its number is the code of the register.
#[derive(Clone, Copy, PartialEq, Eq, Debug)]
pub enum Gain {
    Times1 = 0,
    Times2 = 1,
    Times4 = 3,
    Times8 = 7,
}

impl Gain {
    /// The gain with this code.
    pub fn coded(code: u8) -> Option<Gain> {
        [Gain::Times1, Gain::Times2, Gain::Times4, Gain::Times8].into_iter().find(|gain| *gain as u8 == code)
    }
}

/// A setting that is held. Gain and divisor are told as they stand in the list, which may have been lent with others than saving lets in.
#[derive(Clone, Copy, PartialEq, Eq, Debug)]
pub struct Setting {
    pub version: u16,
    pub fine: u16,
    pub coarse: u16,
    pub gain: u8,
    pub divisor: u8,
}

impl Setting {
    fn told(bytes: &[u8; SETTING]) -> Setting {
        let two = |i: usize| u16::from_be_bytes([bytes[i], bytes[i + 1]]);
        Setting { version: two(0), fine: two(2), coarse: two(4), gain: bytes[6], divisor: bytes[7] }
    }
}

/// Eight places for settings, the oldest first.
#[derive(Clone, PartialEq, Eq, Debug)]
pub struct Settings {
    list: Vec<u8>,
}

impl Default for Settings {
    fn default() -> Settings {
        Settings::new()
    }
}

impl Settings {
    /// A list with no setting in it.
    pub fn new() -> Settings {
        Settings { list: vec![0; raw::settings_length()] }
    }

    /// A list that was kept in bytes. Refused: 37.
    pub fn from_bytes(bytes: &[u8]) -> Result<Settings, Refusal> {
        // Version 0 is held by no list: it is answered 30 where there is one.
        match raw::find(bytes, 0, &mut []) {
            30 => Ok(Settings { list: bytes.to_vec() }),
            n => Err(Refusal::answered(n)),
        }
    }

    /// The list, to be kept.
    pub fn as_bytes(&self) -> &[u8] {
        &self.list
    }

    /// Saves a setting, fine and coarse clipped to what the sensor takes, and gives its version; the oldest goes where eight stand. Refused: 29 a
    /// divisor above 3, 31.
    pub fn save(&mut self, fine: u16, coarse: u16, gain: Gain, divisor: u8, rate: Rate) -> Result<u16, Refusal> {
        or_version(raw::save(&mut self.list, fine, coarse, gain as u8, divisor, rate as u8))
    }

    /// The setting under a version. Refused: 30.
    pub fn find(&self, version: u16) -> Result<Setting, Refusal> {
        let mut setting = [0; SETTING];
        match raw::find(&self.list, version, &mut setting) {
            0 => Ok(Setting::told(&setting)),
            n => Err(Refusal::answered(n)),
        }
    }

    /// Saves a copy of an old setting, as it was saved then, and gives its new version. Refused: 30, 31.
    pub fn back(&mut self, version: u16) -> Result<u16, Refusal> {
        or_version(raw::back(&mut self.list, version))
    }

    /// Writes the two-wire messages that write a setting to a sensor, and gives their length. Refused: 30, 12.
    pub fn messages(&self, version: u16, messages: &mut [u8]) -> Result<usize, Refusal> {
        let (answer, written) = raw::messages(&self.list, version, messages);
        Refusal::or_length(answer, written)
    }
}

/// The new version, or the refusal, which no version comes with.
fn or_version((answer, version): (u8, u16)) -> Result<u16, Refusal> {
    Refusal::or_length(answer, usize::from(version))?;
    Ok(version)
}

/// The exported functions, in numbers: 0 or the refusal, and beside it the new version or the length written.
pub mod raw {
    extern "C" {
        fn fluturenc_settings_length() -> usize;
        fn fluturenc_settings_save(
            list: *mut u8,
            list_length: usize,
            fine: u16,
            coarse: u16,
            gain: u8,
            divisor: u8,
            rate: u8,
            version: *mut u16,
        ) -> u8;
        fn fluturenc_settings_find(list: *const u8, list_length: usize, version: u16, setting: *mut u8, setting_length: usize) -> u8;
        fn fluturenc_settings_back(list: *mut u8, list_length: usize, version: u16, new: *mut u16) -> u8;
        fn fluturenc_settings_messages(
            list: *const u8,
            list_length: usize,
            version: u16,
            messages: *mut u8,
            messages_length: usize,
            written: *mut usize,
        ) -> u8;
    }

    pub fn settings_length() -> usize {
        unsafe { fluturenc_settings_length() }
    }

    pub fn save(list: &mut [u8], fine: u16, coarse: u16, gain: u8, divisor: u8, rate: u8) -> (u8, u16) {
        let mut version = u16::MAX;
        let answer = unsafe { fluturenc_settings_save(list.as_mut_ptr(), list.len(), fine, coarse, gain, divisor, rate, &mut version) };
        (answer, version)
    }

    pub fn find(list: &[u8], version: u16, setting: &mut [u8]) -> u8 {
        unsafe { fluturenc_settings_find(list.as_ptr(), list.len(), version, setting.as_mut_ptr(), setting.len()) }
    }

    pub fn back(list: &mut [u8], version: u16) -> (u8, u16) {
        let mut new = u16::MAX;
        let answer = unsafe { fluturenc_settings_back(list.as_mut_ptr(), list.len(), version, &mut new) };
        (answer, new)
    }

    pub fn messages(list: &[u8], version: u16, messages: &mut [u8]) -> (u8, usize) {
        let mut written = usize::MAX;
        let answer =
            unsafe { fluturenc_settings_messages(list.as_ptr(), list.len(), version, messages.as_mut_ptr(), messages.len(), &mut written) };
        (answer, written)
    }
}

#[cfg(test)]
mod tests {
    use super::*;

    #[test]
    fn settings_are_clipped_found_and_gone_back_to() {
        let mut settings = Settings::new();
        assert_eq!(settings.save(500, 400, Gain::Times8, 3, Rate::PerSecond30), Ok(1));
        let saved = Setting { version: 1, fine: 360, coarse: 302, gain: 7, divisor: 3 };
        assert_eq!(settings.find(1), Ok(saved));
        assert_eq!(settings.save(500, 0, Gain::Times1, 0, Rate::PerSecond25), Ok(2));
        assert_eq!(settings.find(2).map(|s| s.fine), Ok(438));
        assert_eq!(settings.back(1), Ok(3));
        assert_eq!(settings.find(3), Ok(Setting { version: 3, ..saved }));
        let mut messages = [0; MESSAGES];
        assert_eq!(settings.messages(3, &mut messages), Ok(MESSAGES));
        assert_eq!(messages, [32, 32, 1, 32, 33, 104, 32, 34, 1, 32, 35, 46, 32, 36, 7, 32, 37, 3]);
    }

    #[test]
    fn the_ninth_drops_the_oldest() {
        let mut settings = Settings::new();
        for fine in 0..9 {
            assert_eq!(settings.save(fine, 0, Gain::Times1, 0, Rate::PerSecond25), Ok(fine + 1));
        }
        assert_eq!([settings.find(1).map(|s| s.fine), settings.find(2).map(|s| s.fine)], [Err(Refusal::VersionNotHeld), Ok(1)]);
    }

    #[test]
    fn a_refused_call_leaves_the_list() {
        let mut settings = Settings::new();
        settings.save(1, 2, Gain::Times2, 3, Rate::PerSecond25).unwrap();
        let before = settings.clone();
        assert_eq!(settings.save(1, 2, Gain::Times2, 4, Rate::PerSecond25), Err(Refusal::BadSetting));
        assert_eq!(settings.back(2), Err(Refusal::VersionNotHeld));
        assert_eq!(settings, before);
        assert_eq!(Settings::from_bytes(settings.as_bytes()), Ok(before));
        assert_eq!(Settings::from_bytes(&settings.as_bytes()[1..]), Err(Refusal::NotSavedSettings));
        let mut messages = [9; MESSAGES - 1];
        assert_eq!(settings.messages(1, &mut messages), Err(Refusal::NoRoom));
        assert_eq!(messages, [9; MESSAGES - 1]);
        let mut last = [0; 64];
        last[..2].fill(255);
        assert_eq!(raw::save(&mut last, 1, 2, 1, 3, 25), (31, 0));
    }
}
