//! Pictures as files, for hosts that have no image library: PGM, and PNG without compression.

/// The bytes of a PGM file with these pixels, row by row.
///
/// # Panics
///
/// Where a side is 0, or the pixels are not width × height.
///
/// ```
/// assert_eq!(muosleap::files::pgm(3, 2, &[7; 6]), b"P5\n3 2\n255\n\x07\x07\x07\x07\x07\x07");
/// ```
pub fn pgm(width: usize, height: usize, pixels: &[u8]) -> Vec<u8> {
    check(width, height, pixels.len());
    [format!("P5\n{width} {height}\n255\n").as_bytes(), pixels].concat()
}

/// The bytes of a PNG file with these pixels, row by row: grey where a pixel is one number, red, green and blue where it is three.
/// Programs that print take its size from the pixels in an inch, where they are given. The file holds them as pixels in a metre, 1 to
/// 2^31 - 1; what is less or more is written as the nearest of these.
///
/// # Panics
///
/// Where a side is 0, the pixels are not width × height, or the file would have 2 GiB of them or more, which it cannot hold.
///
/// ```
/// let file = muosleap::files::png(1, 2, &[[255], [0]], None);
/// assert!(file.starts_with(b"\x89PNG") && file.ends_with(b"IEND\xae\x42\x60\x82"));
/// ```
pub fn png<const N: usize>(width: usize, height: usize, pixels: &[[u8; N]], dpi: Option<usize>) -> Vec<u8> {
    const { assert!(N == 1 || N == 3) };
    check(width, height, pixels.len());
    let sides = [(width as u32).to_be_bytes(), (height as u32).to_be_bytes()].concat();
    // 8 bits, grey or colour, and the only ways there are of compression, filters and interlacing.
    let head = [&sides[..], &[8, N as u8 - 1, 0, 0, 0]].concat();
    // Pixels in a metre, across and down.
    let size = dpi.map(|dpi| ((dpi as f64 / 0.0254).round().clamp(1.0, i32::MAX as f64) as u32).to_be_bytes());
    let size = size.map_or(vec![], |meter| chunk(b"pHYs", &[&meter[..], &meter, &[1]].concat()));
    // Each row begins with its filter: none.
    let rows: Vec<u8> = pixels.chunks(width).flat_map(|row| [&[0], row.as_flattened()].concat()).collect();
    [b"\x89PNG\r\n\x1a\n".to_vec(), chunk(b"IHDR", &head), size, chunk(b"IDAT", &stored(&rows)), chunk(b"IEND", &[])].concat()
}

fn check(width: usize, height: usize, pixels: usize) {
    assert!(width > 0 && height > 0, "a picture has at least one pixel a side, not {width} x {height}");
    assert!(width.checked_mul(height) == Some(pixels), "a picture of {width} x {height} pixels does not have {pixels}");
}

fn chunk(kind: &[u8; 4], data: &[u8]) -> Vec<u8> {
    assert!(data.len() < 1 << 31, "a part of a PNG file has less than 2^31 bytes, not {}", data.len());
    let body = [kind, data].concat();
    [&(data.len() as u32).to_be_bytes(), &body[..], &crc(&body).to_be_bytes()].concat()
}

/// The data as a zlib stream of stored blocks.
fn stored(data: &[u8]) -> Vec<u8> {
    let blocks: Vec<&[u8]> = data.chunks(65_535).collect();
    let mut stream = vec![0x78, 0x01];
    for (k, block) in blocks.iter().enumerate() {
        let length = block.len() as u16;
        stream.push((k + 1 == blocks.len()) as u8);
        stream.extend(length.to_le_bytes());
        stream.extend((!length).to_le_bytes());
        stream.extend(*block);
    }
    stream.extend(adler(data).to_be_bytes());
    stream
}

fn adler(data: &[u8]) -> u32 {
    let add = |(a, b): (u32, u32), &byte: &u8| {
        let a = (a + byte as u32) % 65_521;
        (a, (b + a) % 65_521)
    };
    let (a, b) = data.iter().fold((1, 0), add);
    b << 16 | a
}

fn crc(data: &[u8]) -> u32 {
    let step = |crc: u32| if crc & 1 == 1 { crc >> 1 ^ 0xedb8_8320 } else { crc >> 1 };
    let table: Vec<u32> = (0..256).map(|byte| (0..8).fold(byte, |crc, _| step(crc))).collect();
    !data.iter().fold(!0, |crc, &byte| crc >> 8 ^ table[(crc as u8 ^ byte) as usize])
}
