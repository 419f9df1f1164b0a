//! Answers 1 to 7 of the reader and the writer, in their order, with their places.

mod common;

use common::{spread, write};
use model::script::{self, Refusal, LONGEST, MOST_STEPS};
use model::setup::Setup;
use model::step::Step;
use model::units::{Packet, Units};

fn refused<T>(answer: u32, place: usize) -> Result<T, Refusal> {
    Err(Refusal { answer, place })
}

fn steps() -> Vec<Step> {
    let packet = Packet { kind: 1, class: 2, length: 0x0304, ident: 0x0506_0708 };
    vec![Step::submit(1, packet), Step::take(0, 3, 2), Step::refresh(1)]
}

fn sample() -> Vec<u8> {
    script::write(&spread(2, 3, 5), &steps()).unwrap()
}

/// Reads a changed copy of the sample.
fn changed(change: impl Fn(&mut Vec<u8>)) -> Result<(), Refusal> {
    let mut bytes = sample();
    change(&mut bytes);
    script::read(&bytes).map(|_| ())
}

#[test]
fn the_bytes_are_as_laid_out() {
    let bytes = sample();
    assert_eq!(bytes.len(), 152);
    assert_eq!(bytes[..12], [1, 1, 2, 1, 4, 3, 0, 0, 8, 7, 6, 5]);
    assert_eq!(bytes[12..24], [6, 0, 3, 2, 0, 0, 0, 0, 0, 0, 0, 0]);
    assert_eq!(bytes[24..36], [8, 1, 0, 0, 0, 0, 0, 0, 0, 0, 0, 0]);
    assert_eq!(bytes[36..44], [2, 1, 0, 1, 0, 1, 0, 1]);
    // End 1, channel 1, category 2 is at 8 + 48 + 12 + 8 = 76 of the setup.
    assert_eq!(bytes[36 + 76..36 + 80], [3, 0, 5, 0]);
    assert_eq!(bytes[36 + 80..140], [0; 24]);
    assert_eq!(bytes[140..], [36, 0, 0, 0, 3, 0, 0, 0, b'P', b'L', b'R', b'N']);
    assert_eq!(script::read(&bytes), Ok((spread(2, 3, 5), steps())));
}

#[test]
fn reader_1_2_3_4() {
    assert_eq!(changed(|bytes| bytes.truncate(115)), refused(1, 0));
    assert_eq!(changed(|bytes| bytes.resize(116, 0)), refused(3, 0));
    assert_eq!(changed(|bytes| bytes.resize(LONGEST, 0)), refused(3, 0));
    assert_eq!(changed(|bytes| bytes.resize(LONGEST + 1, 0)), refused(2, 0));
    for at in 148..152 {
        assert_eq!(changed(|bytes| bytes[at] ^= 32), refused(3, 0));
    }
    assert_eq!(changed(|bytes| bytes[140] = 24), refused(4, 0));
    assert_eq!(changed(|bytes| bytes[144] = 2), refused(4, 0));
    // Both agree with each other but not with the length.
    assert_eq!(changed(|bytes| (bytes[140], bytes[144]) = (24, 2)), refused(4, 0));
    // 12 times 2^30 is 0 in 32 bits.
    assert_eq!(changed(|bytes| bytes[147] = 0x40), refused(4, 0));
    // A length that is no whole number of records.
    assert_eq!(changed(|bytes| bytes.insert(0, 0)), refused(4, 0));
}

#[test]
fn reader_5_before_6() {
    assert_eq!(changed(|bytes| bytes[36] = 0), refused(5, 36));
    assert_eq!(changed(|bytes| bytes[36] = 5), refused(5, 36));
    assert_eq!(changed(|bytes| bytes[43] = 2), refused(5, 36));
    assert_eq!(changed(|bytes| bytes[44] = 0), refused(5, 36));
    assert_eq!(changed(|bytes| bytes[44] = 17), refused(5, 36));
    assert_eq!(changed(|bytes| (bytes[46], bytes[47]) = (0, 0)), refused(5, 36));
    assert_eq!(changed(|bytes| (bytes[46], bytes[47]) = (0, 8)), refused(5, 36));
    assert_eq!(changed(|bytes| (bytes[44], bytes[46], bytes[47]) = (16, 255, 7)), Ok(()));
    assert_eq!(changed(|bytes| bytes[139] = 1), refused(5, 36));
    assert_eq!(changed(|bytes| (bytes[0], bytes[139]) = (0, 1)), refused(5, 36));
}

#[test]
fn reader_6_at_the_first_record_out_of_form() {
    assert_eq!(changed(|bytes| (bytes[0], bytes[12]) = (0, 9)), refused(6, 0));
    assert_eq!(changed(|bytes| bytes[12] = 9), refused(6, 12));
    assert_eq!(changed(|bytes| bytes[25] = 2), refused(6, 24));
    // The two zeros, and each field that Take and Refresh have no use for.
    for at in [6, 7, 16, 17, 18, 19, 20, 23, 26, 27, 28, 29, 30, 31, 32, 35] {
        assert_eq!(changed(|bytes| bytes[at] = 1), refused(6, at / 12 * 12), "{at}");
    }
    // Any class, kind, length and ident is in form.
    assert_eq!(changed(|bytes| (bytes[2], bytes[3], bytes[5], bytes[11]) = (255, 255, 255, 255)), Ok(()));
    assert_eq!(changed(|bytes| (bytes[14], bytes[15]) = (255, 255)), Ok(()));
}

#[test]
fn reader_7_fills_no_later_numbers() {
    let mut list = [99; 20];
    assert_eq!(script::read_into(&sample(), &mut list[..17]), refused(7, 0));
    assert_eq!(list, [99; 20]);
    assert_eq!(script::read_into(&sample(), &mut list), Ok((spread(2, 3, 5), 3)));
    assert_eq!(list, [1, 1, 2, 1, 0x0304, 0x0506_0708, 6, 0, 3, 2, 0, 0, 8, 1, 0, 0, 0, 0, 99, 99]);
    let mut bad = sample();
    bad[24] = 0;
    assert_eq!(script::read_into(&bad, &mut []), refused(6, 24));
}

#[test]
fn writer_4_5_6_7() {
    let good = spread(2, 3, 5);
    let bad = Setup::even(1, Units::new(0, 1));
    let many = vec![Step::bare(9, 0); MOST_STEPS + 1];
    assert_eq!(script::write_into(&bad, &many, &mut []), refused(4, 0));
    assert_eq!(script::write_into(&bad, &many[..2], &mut []), refused(5, 24));
    let mut some = steps();
    some[1].length = 1;
    assert_eq!(script::write_into(&good, &some, &mut []), refused(6, 12));
    let mut buffer = [99; 160];
    assert_eq!(script::write_into(&good, &steps(), &mut buffer[..151]), refused(7, 0));
    assert_eq!(buffer, [99; 160]);
    assert_eq!(script::write_into(&good, &steps(), &mut buffer), Ok(152));
    assert_eq!(buffer[..152], sample());
    assert_eq!(buffer[152..], [99; 8]);
}

#[test]
fn writer_6_for_numbers_that_do_not_fit_their_bytes() {
    let good = spread(2, 3, 5);
    let one = |step| script::write(&good, &[Step::send(0), step]).map(|_| ());
    assert_eq!(one(Step::submit(0, Packet::new(256, 0, 1, 0))), refused(6, 12));
    assert_eq!(one(Step::submit(0, Packet::new(1, 256, 1, 0))), refused(6, 12));
    assert_eq!(one(Step::submit(0, write(65_536, 0))), refused(6, 12));
    assert_eq!(one(Step::submit(0, write(65_535, u32::MAX))), Ok(()));
    assert_eq!(one(Step::take(0, 256, 0)), refused(6, 12));
    assert_eq!(one(Step::send(2)), refused(6, 12));
}

#[test]
fn the_longest_script() {
    let steps = vec![Step::refresh(1); MOST_STEPS];
    let bytes = script::write(&spread(4, 16, 2047), &steps).unwrap();
    assert_eq!(bytes.len(), LONGEST);
    assert_eq!(script::read(&bytes), Ok((spread(4, 16, 2047), steps)));
}
