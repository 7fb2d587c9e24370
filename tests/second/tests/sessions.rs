//! P1 to P12 of document 01, "Sessions to check", with every figure.

use second::calls::{begin, join};
use second::image::{lay_out, Entry, MARK};
use second::listing::listing;
use second::open::open;
use second::record::{Record, Shared};
use second::refusal::Refusal;
use second::step::{step, Answer};

fn laid_out(words: usize) -> Vec<u64> {
    let mut image = vec![0; words];
    assert_eq!(lay_out(&mut image), Ok(()));
    image
}

fn open_number(image: &[u64]) -> u64 {
    open(image, &mut [0; 1024]).err().map_or(0, Refusal::number)
}

fn opened(image: &[u64]) -> Shared {
    open(image, &mut [0; 1024]).expect("opened").shared
}

/// Steps until the answer is neither Stored nor Extending; the count of steps.
fn run(image: &mut [u64], shared: &mut Shared, record: &mut Record) -> (usize, Answer) {
    for steps in 1.. {
        let (answer, shared_after, record_after) = step(image, shared, record);
        (*shared, *record) = (shared_after, record_after);
        if !matches!(answer, Answer::Stored | Answer::Extending) {
            return (steps, answer);
        }
    }
    unreachable!()
}

fn write(image: &mut [u64], shared: &mut Shared, record: &mut Record, o: usize, text: &[u8]) {
    (*shared, *record) = begin(image, shared, record, o, text).expect("begun");
    assert_eq!(run(image, shared, record).1, Answer::Committed(0));
}

/// P2's image, shared record and record.
fn p2() -> (Vec<u64>, Shared, Record) {
    let mut image = laid_out(256);
    let (shared, record) = join(&image, &opened(&image), 3).expect("joined");
    let text = [0x41, 0x42, 0x43, 0x44];
    let (mut shared, mut record) = begin(&image, &shared, &record, 510, &text).expect("begun");
    assert_eq!(record.write.run, 2);
    for _ in 0..128 {
        let (answer, shared_after, record_after) = step(&mut image, &shared, &record);
        assert_eq!(answer, Answer::Stored);
        (shared, record) = (shared_after, record_after);
    }
    let (answer, shared, record) = step(&mut image, &shared, &record);
    assert_eq!(answer, Answer::Committed(0));
    (image, shared, record)
}

fn bytes(image: &[u64]) -> Vec<u8> {
    image.iter().flat_map(|word| word.to_le_bytes()).collect()
}

#[test]
fn p1_sizes() {
    let image = laid_out(256);
    let answer = open(&image, &mut [0; 1024]).expect("opened");
    assert_eq!((answer.length, answer.entries, answer.free), (0, 0, 2));
    assert_eq!((image[0], image[1]), (MARK, 1));
    assert_eq!(lay_out(&mut [0; 255]), Err(Refusal::BadSize));
    assert_eq!(lay_out(&mut [0; 192]), Err(Refusal::BadSize));
    assert_eq!((open_number(&[0; 255]), open_number(&[0; 192])), (1, 1));
}

#[test]
fn p2_one_write() {
    let (image, _, record) = p2();
    assert_eq!(image[64 + 2], 0x000C_0202_0002_0000);
    assert_eq!(image[2 * 64 + 63], 0x4241_0000_0000_0000);
    assert_eq!(image[3 * 64], 0x4443);
    assert_eq!(record.view.length, 514);
    assert_eq!(open(&image, &mut [0; 1024]).expect("opened").length, 514);
    assert_eq!(listing(&bytes(&image)), "length 514 entries 1 free 0\n0 2\n1 3\n");
}

#[test]
fn p3_no_room() {
    let (image, shared, record) = p2();
    for (offset, length) in [(0, 1), (510, 4), (131_071, 1), (511, 1_024), (1_024, 512)] {
        let answer = begin(&image, &shared, &record, offset, &vec![7; length]);
        assert_eq!(answer, Err(Refusal::NoRun));
    }
}

#[test]
fn p4_a_byte_past_the_end() {
    let (mut image, _, _) = p2();
    image[3 * 64] |= 1 << 16;
    assert_eq!(open_number(&image), 9);
    let mut scratch = [5; 1030];
    assert!(open(&image, &mut scratch).is_err());
    assert!(scratch[..1024].iter().all(|&place| place == 0));
    assert!(scratch[1024..].iter().all(|&place| place == 5));
}

/// What opening says of an image of 8 blocks with this entry.
fn with_entry(v: usize, n: usize, u: usize) -> u64 {
    let mut image = laid_out(512);
    // u is packed wider than its field would show, so by hand.
    image[66] = Entry { v, b: 2, n, u: 0, point: 0, rest: 0 }.pack() | (u as u64) << 40;
    open_number(&image)
}

#[test]
fn p5_used_bytes() {
    assert_eq!((with_entry(0, 1, 512), with_entry(0, 1, 513), with_entry(0, 1, 0)), (0, 7, 7));
}

#[test]
fn p6_virtual_blocks() {
    assert_eq!((with_entry(253, 3, 512), with_entry(254, 3, 512)), (0, 7));
}

#[test]
fn p7_a_loop() {
    let mut image = laid_out(512);
    image[64] = 1;
    assert_eq!(open_number(&image), 5);
}

#[test]
fn p8_an_empty_slot() {
    let mut image = laid_out(512);
    image[67] = Entry { v: 0, b: 2, n: 1, u: 1, point: 0, rest: 0 }.pack();
    assert_eq!(open_number(&image), 6);
}

#[test]
fn p9_and_p10_ends() {
    let image = laid_out(512);
    let (shared, record) = join(&image, &opened(&image), 0).expect("joined");
    let number = |offset: usize, length: usize| {
        let answer = begin(&image, &shared, &record, offset, &vec![1; length]);
        answer.err().map_or(0, Refusal::number)
    };
    assert_eq!((number(131_071, 1), number(131_071, 2), number(131_072, 0)), (0, 17, 16));
    assert_eq!((number(0, 1_024), number(0, 1_025)), (0, 16));
    assert_eq!((number(usize::MAX, 1_024), number(usize::MAX, 1)), (17, 17));
}

#[test]
fn p11_two_points() {
    let mut image = laid_out(512);
    let mut shared = opened(&image);
    let (shared_after, mut a) = join(&image, &shared, 0).expect("joined");
    shared = shared_after;
    write(&mut image, &mut shared, &mut a, 0, &[9; 512]);
    let (mut shared, mut b) = join(&image, &shared, 1).expect("joined");
    (shared, a) = begin(&image, &shared, &a, 0, &[1; 256]).expect("begun");
    (shared, b) = begin(&image, &shared, &b, 256, &[2; 256]).expect("begun");
    assert_eq!(run(&mut image, &mut shared, &mut b), (65, Answer::Committed(0)));
    assert_eq!(run(&mut image, &mut shared, &mut a), (65, Answer::Moved));
    // 32 refills and the commit: 64 + 1 + 32 + 1 = 98 steps.
    assert_eq!(run(&mut image, &mut shared, &mut a), (33, Answer::Committed(1)));
    let mut buffer = [0; 600];
    let count = second::calls::read(&image, &shared, &b, 0, &mut buffer);
    assert_eq!(count, Ok(512));
    assert!(buffer[..256].iter().all(|&byte| byte == 1));
    assert!(buffer[256..512].iter().all(|&byte| byte == 2));
}

#[test]
fn p12_joining() {
    let image = laid_out(512);
    let (shared, record) = join(&image, &opened(&image), 31).expect("joined");
    assert_eq!(record, Record::new(31, 1));
    assert_eq!(join(&image, &shared, 31), Err(Refusal::JoinedAlready));
    assert_eq!(join(&image, &shared, 32), Err(Refusal::NoSuchPoint));
}

#[test]
fn the_longest_write() {
    assert_eq!(second::world::longest_case(), Ok(388));
}
