//! The page call: as many whole lines as fit.

use mrc::{lines, page, Page, LONGEST_IMAGE, LONGEST_LINE};

/// Every byte, in a mixed order.
fn image(length: usize) -> Vec<u8> {
    (0..length)
        .map(|place| (place.wrapping_mul(40_503) >> 5) as u8)
        .collect()
}

fn listing(image: &[u8]) -> String {
    let lines = lines(image).expect("an image of at most full length");
    lines.map(|line| line.text).collect()
}

/// The pages of an image, one after the other, by buffers of `room` bytes.
fn pages(image: &[u8], room: usize) -> Vec<u8> {
    let (mut text, mut at) = (Vec::new(), 0);
    let mut out = vec![0; room];
    while at < image.len() {
        let Page { length, taken, .. } = page(image, at, &mut out);
        assert!(taken > 0, "a page at {at} that does not move on");
        text.extend(&out[..length]);
        at += taken;
    }
    assert_eq!(at, image.len());
    text
}

#[test]
fn pages_joined_are_the_listing() {
    for length in [0, 1, 13, 4_096, LONGEST_IMAGE] {
        let image = image(length);
        let listing = listing(&image);
        for room in [LONGEST_LINE, 100, 8_192, LONGEST_LINE * LONGEST_IMAGE] {
            assert!(pages(&image, room) == listing.as_bytes(), "{length} {room}");
        }
    }
}

#[test]
fn a_page_ends_with_the_last_line_that_fits() {
    let image = [0x90; 3];
    let line = "0000  90                     NOP\n".len();
    for room in 0..4 * line {
        let mut out = vec![0xA5; room];
        let page = page(&image, 0, &mut out);
        let count = (room / line).min(image.len());
        assert_eq!((page.length, page.taken), (count * line, count));
        assert!(out[page.length..].iter().all(|byte| *byte == 0xA5));
    }
}

#[test]
fn where_no_line_is_written() {
    let too_long = vec![0x90; LONGEST_IMAGE + 1];
    for (image, position) in [
        (&[][..], 0),
        (&[], 1),
        (&[0x90], 1),
        (&[0x90], 2),
        (&[0x90], usize::MAX),
        (&too_long, 0),
        (&too_long, LONGEST_IMAGE),
    ] {
        let mut out = [0xA5; LONGEST_LINE];
        let page = page(image, position, &mut out);
        assert_eq!((page.length, page.taken), (0, 0));
        assert_eq!(out, [0xA5; LONGEST_LINE]);
    }
}
