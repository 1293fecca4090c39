//! The safe functions: document 01's example, and refusals as the enum.

use pull::{example, kenward_roger, kenward_roger_fill, Refusal, Test};

#[test]
fn the_example() {
    let nine = Test { f: Some(9.0), df: Some(1.0), rank: 1, inside: true };
    let run = kenward_roger(&example::records()).expect("it is accepted");
    assert_eq!((run.coefficients.as_slice(), run.contrast), ([nine].as_slice(), Some(nine)));
    assert!(run.inside());
}

#[test]
fn without_a_contrast() {
    let file = example::records();
    let run = kenward_roger(&file[..file.len() - 16]).expect("it is accepted");
    assert_eq!((run.coefficients.len(), run.contrast), (1, None));
}

/// The example with one record put in another's place.
fn changed(at: usize, record: [u8; 16]) -> Vec<u8> {
    let mut file = example::records();
    file[at * 16..(at + 1) * 16].copy_from_slice(&record);
    file
}

/// The example with weights.
fn weighted(weights: [f64; 2]) -> Vec<u8> {
    let file = example::records();
    let record = |row: u8| example::record(5, row, 0, 0, weights[row as usize]);
    [&file[..32], &record(0), &record(1), &file[32..]].concat()
}

/// A torn pull beside the example's, by either call that has specimens.
#[test]
fn a_torn_pull() {
    let (torn, file) = (example::records_with_a_torn_pull(), example::records());
    assert_eq!(kenward_roger(&torn), kenward_roger(&file));
    assert_eq!(pull::archive(&torn), pull::archive(&file));
    let one = kenward_roger(&weighted([0.0, 1.0])).expect("it is accepted");
    assert_eq!(one.coefficients[0].f, Some(1.8));
    assert_eq!(Refusal::Weight.to_string(), "a weight is below zero");
}

/// Example (k), and its block with another number, a byte behind it, another k.
#[test]
fn a_block() {
    let file = example::records_with_a_block();
    let run = kenward_roger(&file).expect("it is accepted");
    assert_eq!(run.coefficients[0].f, Some(9.0));
    let with = |k: u8, value: [u8; 8]| {
        let mut out = file.clone();
        out[4 * 16 + 2] = k;
        out[4 * 16 + 8..5 * 16].copy_from_slice(&value);
        kenward_roger(&out).expect_err("it is refused")
    };
    assert_eq!(with(1, [0; 8]), Refusal::ParameterCount);
    assert_eq!(with(1, [2, 0, 0, 0, 0, 0, 0, 0]), Refusal::ParameterCount);
    assert_eq!(with(1, 1f64.to_le_bytes()), Refusal::Records);
    assert_eq!(with(2, [2, 0, 0, 0, 0, 0, 0, 0]), Refusal::ParameterCount);
    assert_eq!(with(2, [3, 0, 0, 0, 0, 0, 0, 0]), Refusal::Blocks);
    assert_eq!(with(3, [0; 8]), Refusal::ParameterCount);
    assert_eq!(with(3, [6, 0, 0, 0, 0, 0, 0, 0]), Refusal::Size);
    assert_eq!(with(23, [20, 0, 0, 0, 0, 0, 0, 0]), Refusal::ParameterCount);
    let text = Refusal::ParameterCount.to_string();
    assert_eq!(text, "the number written in a block is not k(k+1)/2");
    assert_eq!(Refusal::ParameterCount.number(), 13);
}

#[test]
fn refusals() {
    let cases = [
        (Vec::new(), Refusal::Records),
        (changed(4, example::record(8, 0, 0, 0, f64::INFINITY)), Refusal::NotFinite),
        (changed(3, example::record(7, 0, 0, 0, 0.0)), Refusal::Sigma2),
        (changed(5, example::record(9, 0, 0, 0, 0.0)), Refusal::ZeroContrast),
        (changed(2, example::record(6, 0, 0, 0, 0.0)), Refusal::Pivot),
        (changed(2, example::record(9, 0, 0, 0, 1.0)), Refusal::Order),
        (changed(1, example::record(1, 0, 0, 0, 2.0)), Refusal::Order),
        (weighted([1.0, -1.0]), Refusal::Weight),
        (weighted([0.0, -0.0]), Refusal::Size),
    ];
    for (file, refusal) in cases {
        assert_eq!(kenward_roger(&file), Err(refusal));
    }
}

/// The length, then the order, then all else.
#[test]
fn order_of_refusals() {
    let falling = changed(0, example::record(99, 9, 9, 9, f64::NAN));
    assert_eq!(kenward_roger(&falling), Err(Refusal::Order));
    assert_eq!(kenward_roger(&falling[1..]), Err(Refusal::Records));
    let rising = changed(5, example::record(99, 9, 9, 9, f64::NAN));
    assert_eq!(kenward_roger(&rising), Err(Refusal::Records));
}

/// 1 comes before the records are looked at, and nothing is written.
#[test]
fn other_lengths() {
    for length in [0, 1, 24, 100, 167, 169, 336] {
        for file in [example::records(), Vec::new()] {
            let mut answer = vec![7; length];
            assert_eq!(kenward_roger_fill(&file, &mut answer), 1);
            assert!(answer.iter().all(|&b| b == 7));
        }
    }
}

/// Calls from several threads at once do not disturb each other.
#[test]
fn threads() {
    let calls = || {
        for _ in 0..200 {
            let run = kenward_roger(&example::records()).expect("it is accepted");
            assert_eq!(run.coefficients[0].f, Some(9.0));
            assert_eq!(kenward_roger(&[]), Err(Refusal::Records));
        }
    };
    std::thread::scope(|scope| {
        for _ in 0..4 {
            scope.spawn(calls);
        }
    });
}

/// Example (i) of the Satterthwaite call: β (4, 1), L identity, v = diag(4, 1),
/// one Jacobian equal to v, A 0.5.
fn example_i() -> Vec<u8> {
    let mut file = Vec::new();
    file.extend(example::record(8, 0, 0, 0, 4.0));
    file.extend(example::record(8, 1, 0, 0, 1.0));
    let v = [[4.0, 0.0], [0.0, 1.0]];
    for (kind, cells) in [(9, [[1.0, 0.0], [0.0, 1.0]]), (30, v), (31, v)] {
        for (i, j) in [(0, 0), (0, 1), (1, 0), (1, 1)] {
            file.extend(example::record(kind, i, j, 0, cells[i as usize][j as usize]));
        }
    }
    file.extend(example::record(32, 0, 0, 0, 0.5));
    file
}

#[test]
fn satterthwaite() {
    let test = Test { f: Some(2.5), df: Some(4.0), rank: 2, inside: true };
    assert_eq!(pull::satterthwaite(&example_i()), Ok(test));
    assert_eq!(pull::satterthwaite(&example::records()), Err(Refusal::Records));
    assert_eq!(kenward_roger(&example_i()), Err(Refusal::Records));
    let mut last_first = example_i();
    last_first.rotate_right(16);
    assert_eq!(pull::satterthwaite(&last_first), Err(Refusal::Order));
    for length in [0, 1, 23, 25, 168] {
        let mut answer = vec![7; length];
        assert_eq!(pull::satterthwaite_fill(&example_i(), &mut answer), 1);
        assert!(answer.iter().all(|&b| b == 7));
    }
}
