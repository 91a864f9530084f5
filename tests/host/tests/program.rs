//! Random inputs of the program: calls, calls whose bytes are damaged, lengths at and beyond what is read.

use host::program::{input, printed};
use second::generate::{case_of_size, Size};

fn agrees(bytes: &[u8]) -> String {
    let ours = printed(bytes);
    let theirs = second::program::printed(bytes).expect("small enough");
    assert_eq!(ours, theirs, "{bytes:X?}");
    ours
}

/// The bytes of a case, damaged in one of several ways or not at all.
fn bytes(seed: u64) -> Vec<u8> {
    let case = case_of_size(seed, Size::SMALL);
    let mut bytes = input(&case.script, &case.moves, &case.rule, case.patience);
    let at = seed as usize * 31 % bytes.len();
    match seed % 8 {
        0 => bytes.truncate(at),
        1 => bytes.extend([0; 4]),
        2 => bytes[at / 4 * 4] ^= 1,
        3 => bytes[0] ^= 1 << (seed / 8 % 8),
        _ => {}
    }
    bytes
}

#[test]
fn random_inputs() {
    let mut unfit = 0;
    for seed in 0..1500 {
        unfit += (agrees(&bytes(seed)) == "refused 20 at 0\n") as u32;
    }
    assert!((200..800).contains(&unfit), "{unfit}");
}

/// The longest inputs that a call can have: 1,024 words, 4,096 moves and 256 rule words; and those of 24,576 bytes.
#[test]
fn long_inputs() {
    let outputs = [[0x4000_0000, 0x8000_0001].repeat(64), vec![0]].concat();
    let most = [vec![0x4000_0000], [0xE000_0000, 0xD000_0000].repeat(64), vec![0x8000_0001, 0]].concat();
    for script in [outputs, most, vec![0; 1024], vec![0; 1025]] {
        for moves in [0, 1, 4096, 4097] {
            for rule in [1, 256, 257] {
                agrees(&input(&script, &vec![0x1000_0000; moves], &[vec![0x1000_0000; rule - 1], vec![0]].concat(), 9));
            }
        }
    }
    for words in [6143, 6144, 6145, 7000] {
        for count in [words - 4, words - 3] {
            agrees(&[(count as u32).to_le_bytes().to_vec(), vec![0; 4 * words - 4]].concat());
        }
        agrees(&[((words - 4) as u32).to_le_bytes().to_vec(), vec![0; 4 * words - 5]].concat());
        agrees(&[((words - 4) as u32).to_le_bytes().to_vec(), vec![0; 4 * words - 3]].concat());
    }
}

/// The longest tree that is printed has 4,096 words, and one word more is refused by 19.
#[test]
fn the_longest_tree() {
    let text = agrees(&wide(1));
    assert!(text.starts_with("yes moves 5 visits 1 deepest 1 weight 26 words 4096\n"), "{}", &text[..60]);
    assert_eq!(text.lines().count(), 4097);
    assert_eq!(agrees(&wide(2)), "refused 19 at 0\n");
}

/// A message of 126 words doubled by five receipts, beside outputs of 30 words and so many INs.
fn wide(ins: usize) -> Vec<u8> {
    let mut script = vec![0x4000_0000, 0xA000_0000];
    script.extend([0xE000_0000, 0x8000_0001].repeat(62));
    script.push(0x8000_0001);
    for _ in 0..5 {
        let variable = 0x9000_0000 | script.len() as u32;
        script.extend([0x3000_0000, 0x4000_0000, 0xE000_0000, variable, variable]);
    }
    script.extend([0; 5]);
    script.extend([0x4000_0000, 0x8000_0001].repeat(14));
    script.extend([vec![0x4000_0000], vec![0xA000_0000; ins], vec![0x8000_0001, 0]].concat());
    let moves: Vec<u32> = (0..5).map(|k| 0x1000_0000 | (2 * k + 1) << 8 | 2 * k).collect();
    input(&script, &moves, &[0], 9)
}
