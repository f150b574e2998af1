//! The two-wire messages of the sensors.

use crate::Refusal;

/// A sensor's 128 registers, current index and increment flag, as messages see them.
#[derive(Clone, PartialEq, Eq, Debug)]
pub struct Sensor {
    state: Box<[u8]>,
}

impl Default for Sensor {
    fn default() -> Sensor {
        Sensor::new()
    }
}

impl Sensor {
    /// Registers, index and flag all 0.
    pub fn new() -> Sensor {
        let mut state = vec![0; raw::sensor_length()].into_boxed_slice();
        assert_eq!(raw::reset(&mut state), 0);
        Sensor { state }
    }

    /// Takes one message, the list of its acknowledged bytes. Refused, and nothing changes: 24, 25, 26, 27, 28.
    pub fn message(&mut self, message: &[u8]) -> Result<(), Refusal> {
        match raw::message(&mut self.state, message) {
            0 => Ok(()),
            n => Err(Refusal::answered(n)),
        }
    }

    /// All 128, by index.
    pub fn registers(&self) -> &[u8] {
        &self.state[..128]
    }

    /// The current index, 0 to 127.
    pub fn index(&self) -> u8 {
        self.state[128]
    }

    /// Whether the index moves after each data byte.
    pub fn increment(&self) -> bool {
        self.state[129] == 1
    }
}

/// Writes a message of three bytes for each pair of index and value, and gives their length. Refused: 28, 12.
pub fn write(pairs: &[(u8, u8)], messages: &mut [u8]) -> Result<usize, Refusal> {
    let pairs: Vec<u8> = pairs.iter().flat_map(|&(index, value)| [index, value]).collect();
    let (answer, written) = raw::write(&pairs, messages);
    Refusal::or_length(answer, written)
}

/// The exported functions, in numbers.
pub mod raw {
    extern "C" {
        fn fluturenc_sensor_length() -> usize;
        fn fluturenc_sensor_reset(sensor: *mut u8, sensor_length: usize) -> u8;
        fn fluturenc_sensor_message(sensor: *mut u8, sensor_length: usize, message: *const u8, message_length: usize) -> u8;
        fn fluturenc_messages(pairs: *const u8, pairs_length: usize, messages: *mut u8, messages_length: usize, written: *mut usize) -> u8;
    }

    pub fn sensor_length() -> usize {
        unsafe { fluturenc_sensor_length() }
    }

    /// 0, or the refusal.
    pub fn reset(sensor: &mut [u8]) -> u8 {
        unsafe { fluturenc_sensor_reset(sensor.as_mut_ptr(), sensor.len()) }
    }

    /// 0, or the refusal.
    pub fn message(sensor: &mut [u8], message: &[u8]) -> u8 {
        unsafe { fluturenc_sensor_message(sensor.as_mut_ptr(), sensor.len(), message.as_ptr(), message.len()) }
    }

    /// 0 or the refusal, and the length written.
    pub fn write(pairs: &[u8], messages: &mut [u8]) -> (u8, usize) {
        let mut written = usize::MAX;
        let answer = unsafe { fluturenc_messages(pairs.as_ptr(), pairs.len(), messages.as_mut_ptr(), messages.len(), &mut written) };
        (answer, written)
    }
}

#[cfg(test)]
mod tests {
    use super::*;

    #[test]
    fn increment_moves_after_each_byte() {
        let mut sensor = Sensor::new();
        assert_eq!(sensor.message(&[32, 128 + 32, 1, 2, 3]), Ok(()));
        assert_eq!((&sensor.registers()[32..36], sensor.index(), sensor.increment()), (&[1, 2, 3, 0][..], 35, true));
        // Past 127 the index is 0; registers 0 to 4 are the sensor's own.
        assert_eq!(sensor.message(&[32, 128 + 127, 9]), Ok(()));
        assert_eq!((sensor.registers()[127], sensor.index()), (9, 0));
        assert_eq!(sensor.message(&[32, 128, 1, 2, 3, 4, 5, 6]), Ok(()));
        assert_eq!(sensor.registers()[..6], [0, 0, 0, 0, 0, 6]);
    }

    #[test]
    fn a_refused_message_changes_nothing() {
        let mut sensor = Sensor::new();
        sensor.message(&[32, 128 + 127]).unwrap();
        let before = sensor.clone();
        let refused: [(&[u8], u8); 6] =
            [(&[9], 24), (&[34, 0], 25), (&[33, 127], 26), (&[33, 255, 1, 0], 27), (&[33, 255, 0, 0], 28), (&[32, 255, 1, 1], 28)];
        for (message, number) in refused {
            assert_eq!(sensor.message(message).map_err(Refusal::number), Err(number), "{message:?}");
            assert_eq!(sensor, before);
        }
    }

    #[test]
    fn pairs_are_messages_of_three_bytes() {
        let mut messages = [9; 7];
        assert_eq!(write(&[(32, 1), (127, 2)], &mut messages), Ok(6));
        assert_eq!(messages, [32, 32, 1, 32, 127, 2, 9]);
        assert_eq!(write(&[(128, 1)], &mut messages), Err(Refusal::PastLastRegister));
        assert_eq!(write(&[(3, 1)], &mut messages[..2]), Err(Refusal::NoRoom));
        assert_eq!(messages, [32, 32, 1, 32, 127, 2, 9]);
    }
}
