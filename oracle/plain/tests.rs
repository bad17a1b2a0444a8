//! The figures of 01 and of the RFCs, run over the plain copy.

use crate::blake2b_long::expand;
use crate::*;

fn hex(bytes: &[u8]) -> String {
    bytes.iter().map(|byte| format!("{byte:02x}")).collect()
}

const BASE: Params =
    Params { algorithm: Params::ID, version: Params::RFC, memory: 8, passes: 1, lanes: 1, configured: None };

/// The answer of a hash with a salt, a tag and lent words of these lengths.
fn answer(params: Params, salt: usize, tag: usize, words: usize) -> Answer {
    let salt = vec![2; salt];
    let inputs = Inputs { password: b"password", salt: &salt, secret: &[], data: &[] };
    hash(&params, &inputs, &mut vec![0; words], &mut vec![0; tag])
}

#[test]
fn rfc_7693_appendix_a() {
    let mut out = [0; 64];
    blake2b::hash(&[b"abc"], &mut out);
    assert_eq!(
        hex(&out),
        "ba80a53f981c4d0d6a2797b69f12f6e94c212f14685ac4b74b12bb6fdbffa2d1\
         7d87c5392aab792dc252d5de4533cc9518d38aa8dbf1925ab92386edd4009923"
    );
}

#[test]
fn rfc_9106_section_5() {
    let tags = [
        "512b391b6f1162975371d30919734294f868e3be3984f3c1a13a4db9fabe4acb",
        "c814d9d1dc7f37aa13f0d77f2494bda1c8de6b016dd388d29952a4c4672b6ce8",
        "0d640df58d78766c08c037a34a8b53c9d01ef0452d75b65eb52520e96b01e659",
    ];
    for (algorithm, tag) in (0..).zip(tags) {
        let params = Params { algorithm, memory: 32, passes: 3, lanes: 4, ..BASE };
        let inputs = Inputs { password: &[1; 32], salt: &[2; 16], secret: &[3; 8], data: &[4; 12] };
        let mut out = [0; 32];
        assert_eq!(hash(&params, &inputs, &mut [7; 32 * BLOCK_WORDS], &mut out), 0);
        assert_eq!(hex(&out), tag);
    }
}

#[test]
fn run_cases() {
    let words = BLOCK_WORDS * 56;
    let sixteen = Params { lanes: 16, memory: 128, ..BASE };
    assert_eq!(answer(sixteen, 8, 32, words), 16);
    assert_eq!(answer(sixteen, 8, 32, 128 * BLOCK_WORDS), 0);
    assert_eq!(answer(Params { memory: 127, ..sixteen }, 8, 32, words), 5);
    assert_eq!(answer(Params { lanes: 17, ..BASE }, 8, 32, words), 4);
    assert_eq!(answer(Params { lanes: 0, memory: 0, ..BASE }, 8, 32, words), 3);
    assert_eq!(answer(BASE, 7, 3, words), 11);
    let configured = Params { configured: Some(32), ..BASE };
    assert_eq!([31, 32, 33].map(|tag| answer(configured, 8, tag, words)), [11, 0, 12]);
    assert_eq!(answer(Params { configured: Some(0), ..BASE }, 8, 32, words), 8);
    assert_eq!([1023, 1024].map(|words| answer(BASE, 8, 32, words)), [16, 0]);
}

#[test]
fn sizes() {
    let sizes = |memory, lanes| {
        let params = Params { memory, lanes, ..BASE };
        (params.segment(), params.blocks())
    };
    assert_eq!([sizes(8, 1), sizes(32, 4), sizes(47, 4)], [(2, 8), (2, 32), (2, 32)]);
}

#[test]
fn positions() {
    let params = Params { memory: 16, lanes: 2, passes: 2, ..BASE };
    let at = |pass, slice, lane, block, word| {
        reference_position(&params, Place { pass, slice, lane, block }, word)
    };
    let found = |lane, block| Reference { answer: 0, lane, block };
    let three = Params { memory: 12, ..BASE };
    let second = Place { pass: 0, slice: 0, lane: 0, block: 2 };
    for word in [0, 1 << 31, u64::MAX] {
        assert_eq!(reference_position(&three, second, word), found(0, 0));
    }
    let other = 1 << 32;
    assert_eq!([at(0, 1, 0, 0, other), at(0, 1, 0, 1, other)], [found(1, 0), found(1, 1)]);
    // P7 and P8: pass 1, own lane, block 1 has area 6.
    let word = |low: u64| at(1, 3, 0, 1, low).block;
    assert_eq!([word(0), word(1 << 31), word(0xffff_ffff)], [5, 4, 0]);
    assert_eq!([at(1, 1, 0, 1, 0).block, at(1, 3, 0, 1, 0).block], [1, 5]);
    assert_eq!([at(2, 0, 0, 0, 0), at(0, 0, 0, 2, 0)].map(|r| r.answer), [17, 17]);
    assert_eq!([at(0, 4, 0, 0, 0), at(0, 1, 2, 0, 0)].map(|r| r.answer), [17, 17]);
}

#[test]
fn pieces() {
    for (length, first, last) in [(65, 32, 33), (96, 32, 64), (97, 64, 33), (1024, 960, 64)] {
        let mut out = vec![0; length];
        assert_eq!(blake2b_long(&[b"in", b"put"], &mut out), 0);
        let mut previous = [0; 64];
        blake2b::hash(&[&(length as u32).to_le_bytes(), b"input"], &mut previous);
        for at in (0..first).step_by(32) {
            assert_eq!(out[at..at + 32], previous[..32]);
            let before = previous;
            blake2b::hash(&[&before], &mut previous[..if at + 32 < first { 64 } else { last }]);
        }
        assert_eq!(out[first..], previous[..last]);
    }
    let mut short = [0; 64];
    expand(&[b"input"], &mut short);
    let mut direct = [0; 64];
    blake2b::hash(&[&64u32.to_le_bytes(), b"input"], &mut direct);
    assert_eq!(short, direct);
    assert_eq!(blake2b_long(&[b"input"], &mut []), 11);
}

#[test]
fn program_lines() {
    assert_eq!(line(&[]), "bad input 1\n");
    let numbers = [7, 3, 19, 8, 1, 1, 0, 32, 0, 0, 0, 0u32];
    let input = numbers.map(u32::to_le_bytes);
    assert_eq!(line(input.as_flattened()), "refused 1\n");
    assert_eq!(line(&[input.as_flattened(), &[0]].concat()), "bad input 6\n");
}

/// Steps to completion, the lanes asked in turn from the one that `turn` names; the steps that were accepted.
fn stepped(mut job: Job, words: &mut [u64], turn: impl Fn(u32) -> u32) -> (Job, u32) {
    let (mut accepted, mut asked) = (0, 0);
    loop {
        let (answer, next) = step(&job, words, turn(asked) % job.params.lanes);
        match answer {
            0 => accepted += 1,
            18 => return (job, accepted),
            other => assert_eq!((other, next), (20, job)),
        }
        (job, asked) = (next, asked + 1);
    }
}

#[test]
fn turns() {
    for (memory, passes, lanes, steps) in [(8, 1, 1, 6), (32, 3, 4, 88), (47, 2, 3, 66), (37, 6, 3, 210)] {
        for algorithm in 0..3 {
            let params = Params { algorithm, memory, passes, lanes, ..BASE };
            let inputs = Inputs { password: &[1; 32], salt: &[2; 16], secret: &[3; 8], data: &[4; 12] };
            let (mut whole, mut tag) = (vec![7; params.blocks() * BLOCK_WORDS], [0; 32]);
            assert_eq!(hash(&params, &inputs, &mut whole, &mut tag), 0);
            for turn in [|n| n, |n| 5 * n / 3, |n| n / 7] {
                let mut words = vec![9; whole.len()];
                let (answer, job) = start(&params, 32, &inputs, &mut words);
                assert_eq!((answer, job.consistent()), (0, true));
                let mut out = [0; 32];
                assert_eq!(finish(&job, &words, &mut out), 21);
                let (job, accepted) = stepped(job, &mut words, turn);
                assert_eq!((accepted, finish(&job, &words, &mut out)), (steps, 0));
                assert_eq!((out, &words), (tag, &whole));
            }
        }
    }
    assert!(!Job::ZEROS.consistent());
}
