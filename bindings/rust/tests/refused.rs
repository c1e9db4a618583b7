//! What each call refuses, and what its error says. Every target is unchanged then.

use lrc_coder::{add, decode, encode, encode_add, is_unrecoverable, rebuild, recipe};
use lrc_coder::{Code, Error, Plan, Status};

const WIDTH: usize = 5;

fn refuses<T>(result: Result<T, Error>, text: &str) {
    let error = result.err().expect("a refused call");
    assert_eq!(error.status, Status::BadArgument);
    assert_eq!(error.to_string(), text);
}

fn fragments() -> Vec<Vec<u8>> {
    (0..16).map(|f| vec![f; WIDTH]).collect()
}

#[test]
fn fragments_of_two_lengths_are_not_encoded() {
    let (stripe, mut short) = (fragments(), [0xEE; 4]);
    let mut data: Vec<&[u8]> = stripe.iter().map(Vec::as_slice).collect();
    let [mut a, mut b, mut c] = [[0xEE; WIDTH]; 3];
    for (count, shown) in [
        (0, "0"),
        (5, "5"),
        (7, "7"),
        (11, "11"),
        (13, "13"),
        (16, "16"),
    ] {
        refuses(
            encode(&data[..count], [&mut a, &mut b, &mut c, &mut short]),
            &format!("encode: {shown} data fragments, expected 12 or 6"),
        );
    }
    let parities = [&mut a[..], &mut b, &mut c, &mut short];
    refuses(
        encode(&data[..12], parities),
        "encode: fragment 15 has 4 bytes, fragment 0 has 5",
    );
    data[11] = &data[11][..1];
    let mut d = [0xEE; WIDTH];
    refuses(
        encode(&data[..12], [&mut a, &mut b, &mut c, &mut d]),
        "encode: fragment 11 has 1 byte, fragment 0 has 5",
    );
    assert_eq!(([a, b, c, d], short), ([[0xEE; WIDTH]; 4], [0xEE; 4]));
}

#[test]
fn a_fragment_is_added_to_parities_of_its_length() {
    let source = [3; WIDTH];
    let [mut a, mut b, mut d] = [[0xEE; WIDTH]; 3];
    let mut c = [0xEE; 6];
    let parities = [&mut a[..], &mut b, &mut c, &mut d];
    refuses(
        encode_add(Code::Small, 2, &source, parities),
        "encode_add: fragment 8 has 6 bytes, fragment 2 has 5",
    );
    let parities = [&mut a[..], &mut b, &mut c[..5], &mut d];
    refuses(
        encode_add(Code::Small, 6, &source, parities),
        "encode_add: fragment 6 is not in 0 to 5",
    );
    assert_eq!(([a, b, d], c), ([[0xEE; WIDTH]; 3], [0xEE; 6]));
}

#[test]
fn what_is_not_lost_or_too_short_is_not_rebuilt() {
    let (stripe, mut target) = (fragments(), [0xEE; WIDTH]);
    let mut left: Vec<Option<&[u8]>> = stripe.iter().map(|bytes| Some(&bytes[..])).collect();
    left[3] = None;
    refuses(
        rebuild(Code::Wide, &left, 4, 0, &mut target),
        "rebuild: fragment 4 is not lost",
    );
    refuses(
        rebuild(Code::Small, &left, 10, 0, &mut target),
        "rebuild: fragment 10 is not in 0 to 9",
    );
    refuses(
        rebuild(Code::Wide, &left, 3, 2, &mut target),
        "rebuild: fragment 0 has 5 bytes, the range ends at 7",
    );
    left[9] = Some(&stripe[9][..4]);
    refuses(
        rebuild(Code::Wide, &left, 3, 0, &mut target),
        "rebuild: fragment 9 has 4 bytes, the range ends at 5",
    );
    refuses(
        rebuild(Code::Wide, &left, 3, usize::MAX, &mut target),
        &format!(
            "rebuild: fragment 0 has 5 bytes, the range ends at {}",
            usize::MAX
        ),
    );
    assert_eq!(target, [0xEE; WIDTH]);
    left[12] = None; // no fragment of the small code, and too short does not matter there
    left[9] = Some(&stripe[9]);
    left[10] = Some(&stripe[10][..1]);
    rebuild(Code::Small, &left, 3, 1, &mut target[1..]).unwrap();
    assert_eq!(target[0], 0xEE);
}

#[test]
fn several_fragments_are_decoded_into_targets_of_one_length() {
    let (stripe, mut target, mut other) = (fragments(), [0xEE; WIDTH], [0xEE; WIDTH]);
    let mut left: Vec<Option<&[u8]>> = stripe.iter().map(|bytes| Some(&bytes[..])).collect();
    (left[3], left[8]) = (None, None);
    for (fragment, text) in [
        (4, "decode: fragment 4 is not lost"),
        (255, "decode: fragment 255 is not in 0 to 15"),
    ] {
        let mut targets = [(3, &mut target[..]), (fragment, &mut other[..])];
        refuses(decode(Code::Wide, &left, 0, &mut targets), text);
    }
    let mut targets = [(3, &mut target[..]), (8, &mut other[..4])];
    refuses(
        decode(Code::Wide, &left, 0, &mut targets),
        "decode: the target of fragment 8 has 4 bytes, fragment 3 has 5",
    );
    let mut targets = [(3, &mut target[..]), (8, &mut other[..])];
    refuses(
        decode(Code::Wide, &left, 1, &mut targets),
        "decode: fragment 0 has 5 bytes, the range ends at 6",
    );
    assert_eq!((target, other), ([0xEE; WIDTH], [0xEE; WIDTH]));
    assert_eq!(decode(Code::Wide, &left, 0, &mut []), Ok(()));
}

#[test]
fn numbers_are_those_of_the_code() {
    refuses(
        is_unrecoverable(Code::Small, 0, 10),
        "is_unrecoverable: fragment 10 is not in 0 to 9",
    );
    refuses(recipe(Code::Wide, 1, 1), "recipe: fragment 1 is not lost");
    refuses(
        recipe(Code::Small, 1 << 10, 10),
        "recipe: fragment 10 is not in 0 to 9",
    );
    let mut target = [0xEE; WIDTH];
    refuses(
        add(&mut target, 1, &[1; 1]),
        "add: the source has 1 byte, the target has 5",
    );
    assert_eq!(target, [0xEE; WIDTH]);
    assert_eq!(Status::BadArgument.text(), "an argument is invalid");
}

#[test]
fn a_range_is_rebuilt_from_its_start() {
    let data: Vec<Vec<u8>> = (0..6)
        .map(|f| vec![f, f * 7 + 1, f * 31, 200 - f])
        .collect();
    let sources: Vec<&[u8]> = data.iter().map(Vec::as_slice).collect();
    let mut parities = [[0; 4]; 4];
    let [a, b, c, d] = &mut parities;
    encode(&sources, [a, b, c, d]).unwrap();
    let whole = sources
        .iter()
        .copied()
        .chain(parities.iter().map(|p| &p[..]));
    let mut left: Vec<Option<&[u8]>> = whole.map(Some).collect();
    (left[2], left[5]) = (None, None);
    let (mut two, mut five) = ([0; 2], [0; 2]);
    rebuild(Code::Small, &left, 2, 1, &mut two).unwrap();
    assert_eq!(two, data[2][1..3]);
    decode(Code::Small, &left, 2, &mut [(5, &mut five), (2, &mut two)]).unwrap();
    assert_eq!(
        (two, five),
        ([data[2][2], data[2][3]], [data[5][2], data[5][3]])
    );
}

#[test]
fn a_plan_is_for_lost_fragments_and_reads_the_others() {
    let wrong = "Plan::new: fragment 1 is not lost";
    refuses(Plan::new(Code::Wide, 1, &[0, 1]), wrong);
    let wrong = "Plan::new: fragment 10 is not in 0 to 9";
    refuses(Plan::new(Code::Small, 1 << 10, &[10]), wrong);
    for fragments in [&[0, 1, 2, 3, 4][..], &[0], &[6, 0]] {
        let error = Plan::new(Code::Wide, 0x5F, fragments).unwrap_err();
        assert_eq!(error.status, Status::Unrecoverable);
        let text = "Plan::new: fragment 0: the fragment is unrecoverable";
        assert_eq!(error.to_string(), text);
    }
    assert_eq!(Plan::new(Code::Wide, 0x5F, &[]).unwrap().reads(), 0);
    let none = Plan::new(Code::Wide, 0x5F, &[]).unwrap();
    assert_eq!(none.decode(&[], 0, &mut []), Ok(()));
}

#[test]
fn a_plan_names_the_fragment_that_is_wrong() {
    let (stripe, mut target) = (fragments(), [0xEE; WIDTH]);
    let mut left: Vec<Option<&[u8]>> = stripe.iter().map(|bytes| Some(&bytes[..])).collect();
    let plan = Plan::new(Code::Wide, 1, &[0]).unwrap();
    assert_eq!(plan.reads(), 0b1_0000_0011_1110);
    refuses(
        plan.decode(&left, 0, &mut []),
        "Plan::decode: 0 targets, expected 1",
    );
    refuses(
        plan.decode(&left, 1, &mut [&mut target]),
        "Plan::decode: fragment 1 has 5 bytes, the range ends at 6",
    );
    left[2] = Some(&stripe[2][..4]);
    refuses(
        plan.decode(&left, 0, &mut [&mut target]),
        "Plan::decode: fragment 2 has 4 bytes, the range ends at 5",
    );
    left[2] = None;
    let wrong = "Plan::decode: fragment 2 is missing, and the plan reads it";
    refuses(plan.decode(&left, 0, &mut [&mut target]), wrong);
    left[2] = Some(&stripe[2]);
    let wrong = "Plan::decode: fragment 12 is missing, and the plan reads it";
    refuses(plan.decode(&left[..12], 0, &mut [&mut target]), wrong);
    let (mut first, mut second) = ([0xEE; 5], [0xEE; 4]);
    let both = Plan::new(Code::Wide, 3, &[0, 1]).unwrap();
    refuses(
        both.decode(&left, 0, &mut [&mut first, &mut second]),
        "Plan::decode: the target of fragment 1 has 4 bytes, fragment 0 has 5",
    );
    assert_eq!((target, first, second), ([0xEE; 5], [0xEE; 5], [0xEE; 4]));
}
