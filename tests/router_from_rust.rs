//! The router's call from Rust, on the stored damaged files: each refusal of a reader comes through as its number.
//! Run in the repository's folder.
use std::fs;

extern "C" {
    fn mustorgyel_check(net: *const u8, net_length: usize, placement: *const u8, placement_length: usize) -> u32;
}

fn check(net: &[u8], placement: &[u8]) -> u32 {
    // The call reads the two slices and keeps nothing.
    unsafe { mustorgyel_check(net.as_ptr(), net.len(), placement.as_ptr(), placement.len()) }
}

/// The cases of tests/damaged/NAME.bin, each after a length of four bytes.
fn cases(name: &str) -> Vec<Vec<u8>> {
    let packed = fs::read(format!("tests/damaged/{name}.bin")).expect("run in the repository's folder");
    let (mut found, mut rest) = (Vec::new(), &packed[..]);
    while !rest.is_empty() {
        let (head, after) = rest.split_at(4);
        let length = u32::from_be_bytes(head.try_into().unwrap());
        let (case, more) = after.split_at(length as usize);
        found.push(case.to_vec());
        rest = more;
    }
    found
}

/// For each case the refusal's number, or none where a reader takes it.
fn refusals(name: &str) -> Vec<Option<u32>> {
    let text = fs::read_to_string(format!("tests/damaged/{name}.expected")).expect("the stored answers");
    text.lines()
        .map(|line| line.strip_prefix("refused ").map(|tail| tail.split(' ').next().unwrap().parse().unwrap()))
        .collect()
}

/// All cases of a set through the call: a reader's refusal is answered, and a file that is read is judged further.
fn agree(name: &str, ask: impl Fn(&[u8]) -> u32) -> usize {
    let (cases, wanted) = (cases(name), refusals(name));
    assert_eq!(cases.len(), wanted.len());
    for (number, (case, want)) in cases.iter().zip(&wanted).enumerate() {
        let have = ask(case);
        match want {
            Some(refusal) => assert_eq!(have, *refusal, "{name}, case {number}"),
            None => assert!(matches!(have, 0 | 10 | 11 | 12), "{name}, case {number}: {have}"),
        }
    }
    cases.len()
}

fn main() {
    let net = [&[1, 0, 9, 0, 0, 0, 10, 0, 0, 0, 2, 0][..], &[3, 0, 11, 0, 0, 0, 0, 0, 14, 0, 0, 0, 4, 0], &[0x7f, 0, 0]].concat();
    let placement = [&[0x11, 0, 2, 0, 1][..], &[0x12, 0, 6, 0, 1, 0, 0, 0, 6], &[0x7f, 0, 0]].concat();
    assert_eq!(check(&net, &placement), 0);
    assert_eq!(check(&[], &[]), 1);
    let mut tried = 0;
    for name in ["net_cases", "net_large"] {
        tried += agree(name, |file| check(file, &placement));
    }
    for name in ["placement_cases", "placement_large"] {
        tried += agree(name, |file| check(&net, file));
    }
    println!("the router's call from Rust: {tried} stored files, as the independent reader says");
}
