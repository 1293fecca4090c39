//! The stored vectors through the C functions: every answer byte and every
//! refusal.

use reader::vectors::{self, hex};

const UNTOUCHED: u8 = 0xa5;

/// The number and the answer bytes of one case.
fn expected<const N: usize>(
    case: &vectors::Vector,
    answer: fn(&vectors::Vector) -> Result<[u8; N], String>,
) -> (u32, [u8; N]) {
    match case.refusal() {
        Some(number) => (number, [UNTOUCHED; N]),
        None => (0, answer(case).unwrap_or_else(|e| panic!("line {}: {e}", case.line))),
    }
}

fn replay<const N: usize>(
    name: &str,
    fill: fn(&[u8], &mut [u8]) -> u32,
    answer: fn(&vectors::Vector) -> Result<[u8; N], String>,
) {
    let cases = vectors::load(name);
    assert!(cases.len() > 500, "{name} has {} cases", cases.len());
    let mut wrong = 0;
    for case in &cases {
        let (number, bytes) = expected(case, answer);
        let mut got = [UNTOUCHED; N];
        let got_number = fill(&case.file, &mut got);
        if (got_number, got) != (number, bytes) {
            wrong += 1;
            println!(
                "{name}:{}: expected {number} {}\n  got {got_number} {}",
                case.line,
                hex(&bytes),
                hex(&got)
            );
        }
    }
    assert_eq!(wrong, 0, "of {} cases of {name}", cases.len());
    println!("{name}: {} cases", cases.len());
}

#[test]
fn kenward_roger() {
    replay(vectors::KENWARD_ROGER, pull::kenward_roger_fill, vectors::Vector::kenward_roger_answer);
}

#[test]
fn satterthwaite() {
    replay(vectors::SATTERTHWAITE, pull::satterthwaite_fill, vectors::Vector::satterthwaite_answer);
}
