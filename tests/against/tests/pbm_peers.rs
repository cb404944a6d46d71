//! The plain card and the one tuned by hand write and read PBM as the model does, so that their times mean something.

use against::bench::{plain, tuned};
use against::draw::arguments::file_bytes;
use against::draw::damage::DAMAGES;
use against::draw::pbm::{drawn, file};
use against::draw::states::FORMATS;
use against::random::Random;
use second::{pbm_read, pbm_write, Format};

type Write = fn(Format, &[u8], &mut [u8]) -> Result<u32, u8>;
type Read = fn(Format, &[u8], &mut [u8]) -> u8;

const PEERS: [(&str, Write, Read); 2] = [
    ("plain", plain::pbm::write_pbm, plain::pbm::read_pbm),
    ("tuned", tuned::pbm::write_pbm, tuned::pbm::read_pbm),
];

#[test]
fn written_alike() {
    let mut random = Random::new(4);
    for format in FORMATS {
        let right = file_bytes(format);
        for length in [right, right - 1, right + 1, 0] {
            let picture = drawn(&mut random, format);
            for lent in [&picture[..], &picture[1..]] {
                let mut wanted = vec![0xA5; length];
                let answer = pbm_write(format, lent, &mut wanted);
                for (name, write, _) in PEERS {
                    let mut buffer = vec![0xA5; length];
                    let (number, value) = match write(format, lent, &mut buffer) {
                        Ok(value) => (0, value),
                        Err(number) => (number, 0),
                    };
                    assert_eq!((number, value), (answer.number, answer.value), "{name}, {format:?}");
                    assert!(buffer == wanted, "{name}, {format:?}");
                }
            }
        }
    }
}

#[test]
fn read_alike() {
    let mut random = Random::new(5);
    for (place, (damage, _, made)) in DAMAGES.iter().enumerate() {
        for turn in 0..20 {
            let format = FORMATS[(place + turn) % 3];
            let picture = drawn(&mut random, format);
            let file = made(&mut random, file(format, &picture));
            let before = drawn(&mut random, format);
            let mut wanted = before.clone();
            let number = pbm_read(format, &file, &mut wanted).number;
            for (name, _, read) in PEERS {
                let mut found = before.clone();
                assert_eq!(read(format, &file, &mut found), number, "{name}, {damage}, {format:?}");
                assert!(found == wanted, "{name}, {damage}, {format:?}");
            }
        }
    }
}
