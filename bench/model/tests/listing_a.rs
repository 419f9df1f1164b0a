//! Listing A of document 01, from a script laid out by hand, byte by byte.

use model::listing::listing;

const LISTING_A: &str = "\
step answer detail
0 0 0
1 15 0
2 0 5
3 0 0
4 19 0
5 0 0
6 0 4
7 0 1
8 0 7
9 21 0
end 0 accepted 1 taken 0 retrains 0
end 1 accepted 0 taken 1 retrains 0
";

/// Step, end, class or channel, kind or category, length, ident.
const STEPS: [[u8; 6]; 10] = [
    [1, 0, 0, 1, 4, 7],
    [1, 0, 0, 1, 5, 7],
    [2, 0, 0, 0, 0, 0],
    [5, 1, 0, 0, 0, 0],
    [3, 1, 0, 0, 0, 0],
    [7, 0, 0, 0, 0, 0],
    [2, 0, 0, 0, 0, 0],
    [3, 1, 0, 0, 0, 0],
    [6, 1, 0, 0, 0, 0],
    [6, 1, 0, 0, 0, 0],
];

fn script() -> Vec<u8> {
    let mut bytes = Vec::new();
    for [number, end, channel, kind, length, ident] in STEPS {
        bytes.extend([number, end, channel, kind, length, 0, 0, 0, ident, 0, 0, 0]);
    }
    // n = 1, all classes on channel 0, then for each end three times one and one, and unused channels.
    bytes.extend([1, 0, 0, 0, 0, 0, 0, 0]);
    for _ in 0..2 {
        bytes.extend([1, 0, 1, 0, 1, 0, 1, 0, 1, 0, 1, 0]);
        bytes.extend([0; 36]);
    }
    bytes.extend([120, 0, 0, 0, 10, 0, 0, 0]);
    bytes.extend(b"PLRN");
    bytes
}

#[test]
fn listing_a_is_as_printed() {
    assert_eq!(script().len(), 236);
    assert_eq!(listing(&script()), LISTING_A);
}

#[test]
fn a_bad_script_gives_one_line() {
    let mut bytes = script();
    bytes[120] = 5;
    assert_eq!(listing(&bytes), "refused 5 at 120\n");
    bytes[120] = 1;
    bytes[36] = 9;
    assert_eq!(listing(&bytes), "refused 6 at 36\n");
    assert_eq!(listing(&[]), "refused 1 at 0\n");
}
