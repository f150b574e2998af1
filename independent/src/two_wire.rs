//! The two-wire messages (02, A6).

#[derive(Clone, PartialEq, Eq, Debug)]
pub struct Sensor {
    registers: [u8; 128],
    index: u8,
    increment: bool,
}

impl Default for Sensor {
    fn default() -> Sensor {
        Sensor::new()
    }
}

impl Sensor {
    pub fn new() -> Sensor {
        Sensor { registers: [0; 128], index: 0, increment: false }
    }

    /// The sensor that bytes hold: registers, index up to 127, flag 0 or 1.
    pub fn from_bytes(bytes: &[u8]) -> Option<Sensor> {
        let registers = bytes.get(..128)?.try_into().ok()?;
        let index = *bytes.get(128).filter(|i| **i < 128)?;
        let increment = *bytes.get(129).filter(|f| **f < 2)? == 1;
        Some(Sensor { registers, index, increment })
    }

    pub fn to_bytes(&self) -> Vec<u8> {
        [&self.registers[..], &[self.index, u8::from(self.increment)]].concat()
    }

    /// The second byte of a read that is in order now.
    pub fn second(&self) -> u8 {
        self.index + 128 * u8::from(self.increment)
    }

    pub fn register(&self, index: usize) -> u8 {
        self.registers[index]
    }

    /// Takes a message; a refused one changes nothing.
    pub fn message(&mut self, message: &[u8]) -> Result<(), u8> {
        let [address, second, data @ ..] = message else {
            return Err(24);
        };
        let mut next = self.clone();
        match address {
            32 => {
                next.increment = second & 128 != 0;
                next.index = second & 127;
            }
            33 if *second != self.second() => return Err(26),
            33 => {}
            _ => return Err(25),
        }
        // Every data byte has a place, from the index on; those past 127 are not compared.
        let places = |i: usize| usize::from(next.index) + if next.increment { i } else { 0 };
        let mut registers = next.registers;
        for (i, &byte) in data.iter().enumerate() {
            match places(i) {
                0..=4 | 128.. => {}
                place if *address == 32 => registers[place] = byte,
                place if registers[place] != byte => return Err(27),
                _ => {}
            }
        }
        if !data.is_empty() && places(data.len() - 1) > 127 {
            return Err(28);
        }
        let end = places(data.len());
        *self = Sensor { registers, index: if end > 127 { 0 } else { end as u8 }, increment: next.increment };
        Ok(())
    }
}

/// The messages of pairs, index and value, or the refusal.
pub fn write(pairs: &[u8], room: usize) -> Result<Vec<u8>, u8> {
    if !pairs.len().is_multiple_of(2) {
        return Err(24);
    }
    if pairs.chunks(2).any(|p| p[0] > 127) {
        return Err(28);
    }
    let messages: Vec<u8> = pairs.chunks(2).flat_map(|p| [32, p[0], p[1]]).collect();
    if messages.len() > room {
        return Err(12);
    }
    Ok(messages)
}

#[cfg(test)]
mod tests {
    use super::*;

    #[test]
    fn increment_moves_after_each_byte() {
        let mut sensor = Sensor::new();
        assert_eq!(sensor.message(&[32, 128 + 32, 1, 2, 3]), Ok(()));
        assert_eq!([32, 33, 34, 35].map(|i| sensor.register(i)), [1, 2, 3, 0]);
        assert_eq!(sensor.second(), 128 + 35);
        // Past 127 the index is 0.
        assert_eq!(sensor.message(&[32, 128 + 127, 9]), Ok(()));
        assert_eq!((sensor.register(127), sensor.second()), (9, 128));
    }

    #[test]
    fn refusals_come_in_their_order_and_change_nothing() {
        let mut sensor = Sensor::new();
        sensor.message(&[32, 128 + 127]).unwrap();
        let before = sensor.clone();
        let refused: [(&[u8], u8); 6] =
            [(&[9], 24), (&[34, 0], 25), (&[33, 127], 26), (&[33, 255, 1, 0], 27), (&[33, 255, 0, 0], 28), (&[32, 255, 1, 1], 28)];
        for (message, number) in refused {
            assert_eq!(sensor.message(message), Err(number), "{message:?}");
            assert_eq!(sensor, before);
        }
    }

    #[test]
    fn the_sensors_own_registers_stay() {
        let mut sensor = Sensor::new();
        assert_eq!(sensor.message(&[32, 128, 1, 2, 3, 4, 5, 6]), Ok(()));
        assert_eq!([0, 4, 5].map(|i| sensor.register(i)), [0, 0, 6]);
    }

    #[test]
    fn a_sensor_is_bytes() {
        let mut sensor = Sensor::new();
        sensor.message(&[32, 128 + 40, 7]).unwrap();
        let mut bytes = sensor.to_bytes();
        assert_eq!(Sensor::from_bytes(&bytes), Some(sensor));
        bytes[128] = 128;
        assert_eq!(Sensor::from_bytes(&bytes), None);
    }

    #[test]
    fn pairs_are_messages_of_three_bytes() {
        assert_eq!(write(&[32, 1, 127, 2], 6), Ok(vec![32, 32, 1, 32, 127, 2]));
        assert_eq!([write(&[128], 0), write(&[128, 1], 0), write(&[127, 1], 2)], [Err(24), Err(28), Err(12)]);
    }
}
