//! The families of cases. Each answers its tally; what reads bytes does so in a reading, by its number.

use crate::{both, own_types};
use differential::cases;
use differential::compare::{over, Tally};
use differential::fields::kinds_and_sizes;
use differential::listing::LONGEST_IMAGE;
use differential::oracle::USUAL_BUDGET;
use differential::random::Random;
use differential::reading::{GIVEN, MANUAL};
use mrc::LONGEST_LINE;

const RANDOM_STRINGS: usize = 65_536;
/// Rooms for one line, for several, for a page of the program `list`, and for all lines of an image.
const PAGE_ROOMS: [usize; 7] = [
    LONGEST_LINE,
    LONGEST_LINE + 1,
    100,
    255,
    1_000,
    8_192,
    LONGEST_LINE * LONGEST_IMAGE,
];

pub fn short_strings(reading: u8) -> Tally {
    over(256, |first, tally| {
        cases::short_strings(first as u8, 3, &mut |string| {
            both::decode(tally, reading, string, 0, USUAL_BUDGET);
        });
    })
}

pub fn every_modrm_cut(reading: u8) -> Tally {
    over(256, |opcode, tally| {
        cases::every_modrm(opcode as u8, &mut |string| {
            cases::cuts(string, &mut |cut| {
                both::decode(tally, reading, cut, 0, USUAL_BUDGET);
            });
        });
    })
}

pub fn random_strings(reading: u8, seed: u64) -> Tally {
    over(RANDOM_STRINGS, |stream, tally| {
        let string = cases::random_string(&mut Random::new(seed, stream as u64));
        for at in cases::positions(&string) {
            for budget in 0..=255 {
                both::decode(tally, reading, &string, at, budget);
            }
        }
    })
}

pub fn prefix_runs(reading: u8, seed: u64) -> Tally {
    over(cases::LONGEST_RUN + 1, |length, tally| {
        for mut run in cases::prefix_runs(length, &mut Random::new(seed, length as u64)) {
            for behind in cases::BEHIND_PREFIXES {
                run.truncate(length);
                run.extend(behind);
                for budget in 0..=255 {
                    both::decode(tally, reading, &run, 0, budget);
                }
            }
        }
    })
}

pub fn modrm_reader(seed: u64) -> Tally {
    let mut tally = over(256, |first, tally| {
        cases::short_strings(first as u8, 3, &mut |string| both::mrrm(tally, string, 0));
    });
    tally.add(over(RANDOM_STRINGS, |stream, tally| {
        let string = cases::random_string(&mut Random::new(seed, stream as u64));
        for at in cases::positions(&string) {
            both::mrrm(tally, &string, at);
        }
    }));
    tally
}

pub fn field_readers() -> Tally {
    over(256, |field, tally| both::field_readers(tally, field as u8))
}

pub fn operand_size() -> Tally {
    let mut tally = Tally::default();
    for (kind, size) in kinds_and_sizes() {
        both::operand_size(&mut tally, kind, size);
    }
    tally
}

pub fn own_types(seed: u64) -> Tally {
    let mut tally = over(256, |first, tally| {
        own_types::fields(tally, first as u8);
        cases::short_strings(first as u8, 2, &mut |string| {
            own_types::decode(tally, string)
        });
        for front in cases::FRONTS {
            for (modrm, tail) in (0..=255).zip(cases::TAILS.into_iter().cycle()) {
                let string = [front, &[first as u8, modrm], &tail].concat();
                own_types::decode(tally, &string);
                own_types::decode_second(tally, &string);
            }
        }
        for tail in cases::TAILS {
            let string = [&[first as u8][..], &tail].concat();
            (1..=string.len()).for_each(|length| own_types::mrrm(tally, &string[..length]));
        }
    });
    tally.add(over(RANDOM_STRINGS, |stream, tally| {
        let string = cases::random_string(&mut Random::new(seed, stream as u64));
        own_types::decode(tally, &string);
        own_types::decode_second(tally, &string);
    }));
    tally
}

pub fn between_records() -> Tally {
    let mut tally = Tally::default();
    for behind in cases::BEHIND_PREFIXES {
        both::decode_between(&mut tally, GIVEN, behind);
        both::decode_between(&mut tally, MANUAL, behind);
        both::mrrm_between(&mut tally, behind);
    }
    tally
}

/// Every number that may name a reading, where the two readings part and where they do not.
pub fn reading_numbers() -> Tally {
    over(256, |number, tally| {
        let reading = number as u8;
        for string in cases::BEHIND_PREFIXES
            .into_iter()
            .chain(cases::WHERE_READINGS_PART)
        {
            for front in cases::FRONTS {
                let string = [front, string].concat();
                both::decode(tally, reading, &string, 0, USUAL_BUDGET);
                both::line(tally, reading, &string, 0, both::MUCH_ROOM);
                both::page(tally, reading, &string, 0, 4 * both::MUCH_ROOM);
            }
        }
    })
}

pub fn lines(reading: u8) -> Tally {
    over(256, |opcode, tally| {
        cases::every_modrm(opcode as u8, &mut |string| {
            both::line_by_length(tally, reading, string, 0);
        });
    })
}

pub fn lines_of_an_image(reading: u8, seed: u64) -> Tally {
    let image = cases::random_image(LONGEST_IMAGE, &mut Random::new(seed, 0));
    over(image.len() + 3, |at, tally| {
        both::line_by_length(tally, reading, &image, at);
    })
}

pub fn line_rooms(reading: u8, seed: u64) -> Tally {
    let long = cases::random_image(LONGEST_IMAGE + 1, &mut Random::new(seed, 1));
    over(both::MUCH_ROOM + 1, |room, tally| {
        for stream in 0..256 {
            let image = cases::random_string(&mut Random::new(seed, stream));
            for at in cases::positions(&image) {
                both::line(tally, reading, &image, at, room);
            }
        }
        for at in cases::positions(&long[..16]).chain(LONGEST_IMAGE - 1..=LONGEST_IMAGE + 2) {
            both::line(tally, reading, &long, at, room);
        }
    })
}

pub fn pages(reading: u8, seed: u64) -> Tally {
    let image = cases::random_image(LONGEST_IMAGE, &mut Random::new(seed, 2));
    over(PAGE_ROOMS.len(), |place, tally| {
        let room = PAGE_ROOMS[place];
        let mut at = 0;
        while at < image.len() {
            at += both::page(tally, reading, &image, at, room);
        }
        both::pages(tally, reading, &image, room);
    })
}

pub fn page_rooms(reading: u8, seed: u64) -> Tally {
    let long = cases::random_image(LONGEST_IMAGE + 1, &mut Random::new(seed, 1));
    over(4 * both::MUCH_ROOM, |room, tally| {
        for stream in 0..64 {
            let image = cases::random_string(&mut Random::new(seed, stream));
            for at in cases::positions(&image) {
                both::page(tally, reading, &image, at, room);
            }
        }
        both::page(tally, reading, &long, room, room);
    })
}
