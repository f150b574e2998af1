//! Saved exposure settings (02, A11). A list lent in bytes is a vector of settings here, read and written a place at a time.

/// Fine exposure at most, at 25 and at 30 frames a second, and coarse exposure (004, Table 24).
const FINE: [(u8, u16); 2] = [(25, 438), (30, 360)];
const COARSE: u16 = 302;

const GAINS: [u8; 4] = [0, 1, 3, 7];

#[derive(Clone, Copy, PartialEq, Eq, Debug)]
pub struct Setting {
    pub version: u16,
    pub fine: u16,
    pub coarse: u16,
    pub gain: u8,
    pub divisor: u8,
}

impl Setting {
    pub fn from_bytes(bytes: &[u8]) -> Setting {
        let two = |i: usize| u16::from_be_bytes([bytes[i], bytes[i + 1]]);
        Setting { version: two(0), fine: two(2), coarse: two(4), gain: bytes[6], divisor: bytes[7] }
    }

    pub fn to_bytes(self) -> Vec<u8> {
        let words = [self.version, self.fine, self.coarse];
        words.iter().flat_map(|word| word.to_be_bytes()).chain([self.gain, self.divisor]).collect()
    }
}

/// The list that bytes hold: eight places, used ones first, versions in unbroken sequence. Else 37.
pub fn from_bytes(bytes: &[u8]) -> Result<Vec<Setting>, u8> {
    if bytes.len() != 64 {
        return Err(37);
    }
    let list: Vec<Setting> = bytes.chunks(8).map(Setting::from_bytes).collect();
    let used = list.iter().take_while(|s| s.version != 0).count();
    let gap = list[used..].iter().any(|s| s.version != 0);
    let broken = (1..used).any(|i| u32::from(list[i].version) != u32::from(list[i - 1].version) + 1);
    if gap || broken {
        return Err(37);
    }
    Ok(list)
}

pub fn to_bytes(list: &[Setting]) -> Vec<u8> {
    list.iter().flat_map(|s| s.to_bytes()).collect()
}

/// Puts a setting behind the used ones, under the next version; the oldest goes where there is no place left.
fn push(list: &mut Vec<Setting>, setting: Setting) -> Result<u16, u8> {
    let used = list.iter().filter(|s| s.version != 0).count();
    let newest = if used == 0 { 0 } else { list[used - 1].version };
    let version = newest.checked_add(1).ok_or(31)?;
    let setting = Setting { version, ..setting };
    if used == list.len() {
        list.remove(0);
        list.push(setting);
    } else {
        list[used] = setting;
    }
    Ok(version)
}

/// The new version, and the list's bytes; or the refusal.
pub fn save(bytes: &[u8], fine: u16, coarse: u16, gain: u8, divisor: u8, rate: u8) -> Result<(u16, Vec<u8>), u8> {
    let mut list = from_bytes(bytes)?;
    let most = FINE.iter().find(|(r, _)| *r == rate).map(|(_, most)| *most);
    let Some(most) = most.filter(|_| GAINS.contains(&gain) && divisor < 4) else {
        return Err(29);
    };
    let version = push(&mut list, Setting { version: 0, fine: fine.min(most), coarse: coarse.min(COARSE), gain, divisor })?;
    Ok((version, to_bytes(&list)))
}

pub fn find(bytes: &[u8], version: u16) -> Result<Setting, u8> {
    let list = from_bytes(bytes)?;
    list.into_iter().find(|s| s.version == version && version != 0).ok_or(30)
}

/// As saving, with a setting that is held, as it stands.
pub fn back(bytes: &[u8], version: u16) -> Result<(u16, Vec<u8>), u8> {
    let found = find(bytes, version)?;
    let mut list = from_bytes(bytes)?;
    let new = push(&mut list, found)?;
    Ok((new, to_bytes(&list)))
}

/// The messages that write a held setting: registers 32 to 37 hold fine and coarse, high byte first, gain and divisor (004, Table 8).
pub fn messages(bytes: &[u8], version: u16, room: usize) -> Result<Vec<u8>, u8> {
    let found = find(bytes, version)?.to_bytes();
    let messages: Vec<u8> = found[2..].iter().zip(32..).flat_map(|(&value, index)| [32, index, value]).collect();
    if messages.len() > room {
        return Err(12);
    }
    Ok(messages)
}

#[cfg(test)]
mod tests {
    use super::*;

    #[test]
    fn settings_are_clipped_and_found() {
        let (version, list) = save(&[0; 64], 500, 400, 7, 3, 30).unwrap();
        assert_eq!(version, 1);
        assert_eq!(list[..8], [0, 1, 1, 104, 1, 46, 7, 3]);
        assert_eq!(list[8..], [0; 56]);
        assert_eq!(find(&list, 1), Ok(Setting { version: 1, fine: 360, coarse: 302, gain: 7, divisor: 3 }));
        let (_, slower) = save(&[0; 64], 500, 400, 7, 3, 25).unwrap();
        assert_eq!(find(&slower, 1).map(|s| s.fine), Ok(438));
    }

    #[test]
    fn the_ninth_drops_the_oldest() {
        let list = (0..9).fold(vec![0; 64], |list, i| save(&list, i, 0, 0, 0, 25).unwrap().1);
        assert_eq!(find(&list, 1), Err(30));
        let (version, list) = back(&list, 2).unwrap();
        assert_eq!((version, find(&list, 10).map(|s| s.fine), find(&list, 2)), (10, Ok(1), Err(30)));
    }

    #[test]
    fn refusals_come_in_their_order() {
        let (_, list) = save(&[0; 64], 1, 2, 3, 3, 25).unwrap();
        let mut last = [0; 64];
        last[..2].fill(255);
        assert_eq!([save(&[0; 63], 0, 0, 2, 0, 25), save(&last, 0, 0, 2, 0, 25), save(&last, 0, 0, 1, 0, 25)], [Err(37), Err(29), Err(31)]);
        assert_eq!([back(&list[8..], 0), back(&list, 0), back(&last, 65_535)], [Err(37), Err(30), Err(31)]);
        assert_eq!([messages(&list[8..], 2, 0), messages(&list, 2, 0), messages(&list, 1, 17)], [Err(37), Err(30), Err(12)]);
        // A place after an unused one, and versions that are not in sequence.
        let [mut apart, mut broken] = [[0; 64]; 2];
        apart[9] = 1;
        (broken[1], broken[9]) = (1, 3);
        assert_eq!([from_bytes(&apart), from_bytes(&broken)], [Err(37), Err(37)]);
    }

    #[test]
    fn messages_write_registers_32_to_37() {
        let (_, list) = save(&[0; 64], 257, 258, 3, 2, 25).unwrap();
        assert_eq!(messages(&list, 1, 18), Ok(vec![32, 32, 1, 32, 33, 1, 32, 34, 1, 32, 35, 2, 32, 36, 3, 32, 37, 2]));
    }
}
