//! Each lost set of both codes.

use lrc_coder::{add, decode, encode, encode_add, is_open, is_unrecoverable, rebuild, recipe};
use lrc_coder::{Code, Error, Plan, Status, Target};

const WIDTH: usize = 5;

fn stripe(code: Code) -> Vec<Vec<u8>> {
    let mut data: Vec<Vec<u8>> = (0..code as u8)
        .map(|f| {
            (0..WIDTH as u8)
                .map(|k| f.wrapping_mul(59).wrapping_add(k * 7))
                .collect()
        })
        .collect();
    let sources: Vec<&[u8]> = data.iter().map(Vec::as_slice).collect();
    let mut parities = [[0; WIDTH]; 4];
    let [a, b, c, d] = &mut parities;
    encode(&sources, [a, b, c, d]).unwrap();
    let mut added = [[0; WIDTH]; 4];
    for (f, source) in sources.iter().enumerate() {
        let [a, b, c, d] = &mut added;
        encode_add(code, f as u8, source, [a, b, c, d]).unwrap();
    }
    assert_eq!(parities, added);
    data.extend(parities.map(Vec::from));
    data
}

fn refuses(refused: Error, call: &str, fragment: usize) {
    assert_eq!(refused.status, Status::Unrecoverable);
    let text = Status::Unrecoverable.text();
    assert_eq!(
        refused.to_string(),
        format!("{call}: fragment {fragment}: {text}")
    );
}

/// Whether each lost fragment is rebuilt, as the sum of its recipe too.
fn is_whole(code: Code, stripe: &[Vec<u8>], lost: u16) -> bool {
    let is_left = |i: usize| lost >> i & 1 == 0;
    let left: Vec<Option<&[u8]>> = stripe
        .iter()
        .enumerate()
        .map(|(i, bytes)| is_left(i).then_some(&bytes[..]))
        .collect();
    let mut whole = true;
    for (f, bytes) in stripe.iter().enumerate().filter(|(i, _)| !is_left(*i)) {
        let (mut rebuilt, mut sum) = ([0; WIDTH], [0; WIDTH]);
        match recipe(code, lost, f as u8) {
            Ok(terms) => {
                rebuild(code, &left, f as u8, 0, &mut rebuilt).unwrap();
                for term in terms {
                    add(
                        &mut sum,
                        term.coefficient,
                        left[term.fragment as usize].unwrap(),
                    )
                    .unwrap();
                }
                assert_eq!(
                    (&rebuilt, &sum),
                    (bytes[..].try_into().unwrap(), bytes[..].try_into().unwrap())
                );
            }
            Err(refused) => {
                refuses(refused, "recipe", f);
                let rebuilding = rebuild(code, &left, f as u8, 0, &mut rebuilt);
                refuses(rebuilding.unwrap_err(), "rebuild", f);
                assert_eq!(rebuilt, [0; WIDTH]);
                whole = false;
            }
        }
        let is_refused = Ok(recipe(code, lost, f as u8).is_err());
        assert_eq!(is_unrecoverable(code, lost, f as u8), is_refused);
        assert_eq!(is_open(code, lost, f as u8), is_refused);
    }
    whole
}

/// Whether all lost fragments are decoded at once.
fn decodes_whole(code: Code, stripe: &[Vec<u8>], lost: u16) -> bool {
    let is_left = |i: usize| lost >> i & 1 == 0;
    let left: Vec<Option<&[u8]>> = stripe
        .iter()
        .enumerate()
        .map(|(i, bytes)| is_left(i).then_some(&bytes[..]))
        .collect();
    let set = lost;
    let lost: Vec<usize> = (0..stripe.len()).filter(|i| !is_left(*i)).collect();
    let mut decoded = vec![[0xEE; WIDTH]; lost.len()];
    let mut targets: Vec<Target> = lost
        .iter()
        .zip(&mut decoded)
        .map(|(f, bytes)| (*f as u8, &mut bytes[..]))
        .collect();
    match decode(code, &left, 0, &mut targets) {
        Ok(()) => assert!(lost
            .iter()
            .zip(&decoded)
            .all(|(f, bytes)| stripe[*f] == bytes)),
        Err(refused) => {
            let is_whole = |f: &&usize| is_unrecoverable(code, set, **f as u8) == Ok(false);
            let first = lost.iter().find(|f| !is_whole(f)).unwrap();
            refuses(refused, "decode", *first);
            assert!(decoded.iter().all(|bytes| *bytes == [0xEE; WIDTH]));
            return false;
        }
    }
    true
}

/// Whether a plan decodes all lost fragments, from those that it reads alone.
fn plans_whole(code: Code, stripe: &[Vec<u8>], lost: u16) -> bool {
    let numbers: Vec<u8> = (0..stripe.len() as u8)
        .filter(|f| lost >> f & 1 == 1)
        .collect();
    let plan = match Plan::new(code, lost, &numbers) {
        Ok(plan) => plan,
        Err(refused) => {
            assert_eq!(refused.status, Status::Unrecoverable);
            return false;
        }
    };
    let is_read = |i: usize| plan.reads() >> i & 1 == 1;
    let read: Vec<Option<&[u8]>> = stripe
        .iter()
        .enumerate()
        .map(|(i, bytes)| is_read(i).then_some(&bytes[..]))
        .collect();
    let mut decoded = vec![[0xEE; WIDTH]; numbers.len()];
    let mut targets: Vec<&mut [u8]> = decoded.iter_mut().map(|bytes| &mut bytes[..]).collect();
    plan.decode(&read, 0, &mut targets).unwrap();
    for (f, bytes) in numbers.iter().zip(&decoded) {
        assert_eq!(stripe[usize::from(*f)], bytes);
    }
    true
}

fn count_whole(code: Code) -> usize {
    let stripe = stripe(code);
    let sets = 0..=u16::MAX >> (16 - stripe.len());
    let is_whole = |lost: &u16| {
        let whole = is_whole(code, &stripe, *lost);
        assert_eq!(whole, decodes_whole(code, &stripe, *lost));
        assert_eq!(whole, plans_whole(code, &stripe, *lost));
        whole
    };
    sets.filter(is_whole).count()
}

#[test]
fn each_lost_set_of_lrc_12_2_2() {
    assert_eq!(count_whole(Code::Wide), 2265);
}

#[test]
fn each_lost_set_of_lrc_6_2_2() {
    assert_eq!(count_whole(Code::Small), 356);
}
