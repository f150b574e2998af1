//! Pictures as PGM files (02, A1), and heads that send odd pixels first (A2).

const WIDTH: usize = 356;

fn header(height: usize) -> Vec<u8> {
    format!("P5\n{WIDTH} {height}\n255\n").into_bytes()
}

/// The bytes as they are; 22 for a pixel that is not 01 to FE.
fn pixels(bytes: &[u8]) -> Result<&[u8], u8> {
    match bytes.iter().find(|b| matches!(b, 0 | 255)) {
        Some(_) => Err(22),
        None => Ok(bytes),
    }
}

fn in_room(bytes: Vec<u8>, room: usize) -> Result<Vec<u8>, u8> {
    if bytes.len() > room {
        return Err(12);
    }
    Ok(bytes)
}

/// The file of rows, or the refusal.
pub fn write(rows: &[u8], room: usize) -> Result<Vec<u8>, u8> {
    let height = rows.len() / WIDTH;
    if !rows.len().is_multiple_of(WIDTH) || (height != 292 && height != 288) {
        return Err(21);
    }
    in_room([&header(height), pixels(rows)?].concat(), room)
}

/// The rows of a file, or the refusal.
pub fn read(file: &[u8], room: usize) -> Result<Vec<u8>, u8> {
    let headed = |height| file.strip_prefix(&header(height)[..]).map(|rows| (height, rows));
    let (height, rows) = headed(292).or_else(|| headed(288)).ok_or(20)?;
    if rows.len() != height * WIDTH {
        return Err(21);
    }
    in_room(pixels(rows)?.to_vec(), room)
}

/// Body place j below 178 holds pixel 2j + 1, place 178 + j holds pixel 2j.
fn reordered(kind: u8, bytes: &[u8], room: usize, copy: fn(&mut [u8], &[u8], usize, usize)) -> Result<Vec<u8>, u8> {
    if kind != 3 {
        return Err(23);
    }
    if bytes.len() != WIDTH {
        return Err(15);
    }
    let mut out = vec![0; WIDTH];
    for j in 0..WIDTH / 2 {
        copy(&mut out, bytes, j, 2 * j + 1);
        copy(&mut out, bytes, WIDTH / 2 + j, 2 * j);
    }
    in_room(out, room)
}

/// The pixels of a body, or the refusal.
pub fn to_pixels(kind: u8, body: &[u8], room: usize) -> Result<Vec<u8>, u8> {
    reordered(kind, body, room, |pixels, body, place, pixel| pixels[pixel] = body[place])
}

/// The body of pixels, or the refusal.
pub fn to_body(kind: u8, pixels: &[u8], room: usize) -> Result<Vec<u8>, u8> {
    reordered(kind, pixels, room, |body, pixels, place, pixel| body[place] = pixels[pixel])
}

#[cfg(test)]
mod tests {
    use super::*;

    #[test]
    fn a_file_is_its_header_and_its_pixels() {
        let rows = vec![9; 288 * WIDTH];
        let file = write(&rows, usize::MAX).unwrap();
        assert!(file.starts_with(b"P5\n356 288\n255\n\x09"));
        assert_eq!(read(&file, rows.len()), Ok(rows));
    }

    #[test]
    fn refusals_come_in_their_order() {
        let mut rows = vec![9; 292 * WIDTH];
        let file = write(&rows, usize::MAX).unwrap();
        assert_eq!([write(&rows[1..], 0), write(&rows, file.len() - 1)], [Err(21), Err(12)]);
        assert_eq!([read(&file[1..], 0), read(&file[..file.len() - 1], 0), read(&file, rows.len() - 1)], [Err(20), Err(21), Err(12)]);
        rows[5] = 255;
        assert_eq!(write(&rows, 0), Err(22));
        assert_eq!(read(&[&file[..15], &rows].concat(), 0), Err(22));
    }

    /// 02, A2: place j below 178 holds pixel 2j + 1, place 178 + j holds pixel 2j.
    #[test]
    fn each_order_undoes_the_other() {
        let pixels: Vec<u8> = (0..356u16).map(|i| i as u8).collect();
        let body = to_body(3, &pixels, 356).unwrap();
        assert_eq!((body[0], body[177], body[178], body[355]), (1, 99, 0, 98));
        assert_eq!(to_pixels(3, &body, 356), Ok(pixels));
        assert_eq!([to_body(2, &[], 0), to_body(3, &[], 0), to_body(3, &body, 355)], [Err(23), Err(15), Err(12)]);
    }
}
