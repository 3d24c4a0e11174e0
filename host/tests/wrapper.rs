//! The library in Rust's hands, beside itself: calls that must agree.

use jozkeral::engine::{Engine, Library, Number, Operation, Refusal, State};
use jozkeral::list;

fn tape(text: &str) -> Vec<u8> {
    list::read(text, &[]).expect("a list").tape()
}

const LIST: &str =
    "qubits 5\nlabel \"a\"\nx 0\ncnot 0 1\nrx 0 0.7\ncnot 0 1\nlabel \"\"\nrz 1 0.3\n\
                    iswap 1 2\ny 3\ncnot 2 3\nrx 2 -1.1\ncnot 2 3\niswapdg 3 4\nx 2\n";

/// A run is its operations applied to the vacuum, one after the other.
#[test]
fn a_run_is_its_operations() {
    let tape = tape(LIST);
    let run = Library.run(&tape).expect("a run");
    let compiled = Library.compile(&tape).expect("a report");
    assert_eq!(compiled.operations, run.compiled.operations);
    assert_eq!(compiled.report, run.compiled.report);
    let mut state = State::vacuum(5);
    for operation in &compiled.operations {
        Library.apply(&mut state, operation).expect("an operation of the run");
    }
    for q in 0..5 {
        let z = |state| Library.expectation_z_product(state, &[q]);
        assert_eq!(z(&state), z(&run.state));
    }
    assert_eq!(Library.sample(&state, 2, &[0.4; 10]), Library.sample(&run.state, 2, &[0.4; 10]));
}

#[test]
fn queries_agree() {
    let state = Library.run(&tape(LIST)).expect("a run").state;
    let product = |list: &[usize]| Library.expectation_z_product(&state, list).expect("qubits");
    let read = |list: &[usize], bits: &[u8]| {
        Library.marginal_probability(&state, list, bits).expect("qubits with bits").value
    };
    for q in 0..5 {
        let z = read(&[q], &[0]) - read(&[q], &[1]);
        assert!((product(&[q]).value - z).abs() < 1e-12, "{z}");
    }
    let even = read(&[1, 3], &[0, 0]) + read(&[1, 3], &[1, 1]);
    let odd = read(&[1, 3], &[0, 1]) + read(&[1, 3], &[1, 0]);
    assert!((product(&[1, 3]).value - (even - odd)).abs() < 1e-12, "{even} {odd}");
    assert_eq!(product(&[3, 1]), product(&[1, 3]));
    assert_eq!(product(&[]), Number::from(1.0));
    let index = 0b10110;
    let (qubits, bits) = ([0, 1, 2, 3, 4], [0, 1, 1, 0, 1]);
    assert_eq!(Library.probability(&state, index), Ok(read(&qubits, &bits)));
    let all: f64 = (0..32).map(|x| Library.probability(&state, x).expect("an index")).sum();
    assert!((all - 1.0).abs() < 1e-12, "{all}");
}

/// A row is told only of a zero that was found, and counts in the matrix of the modes that are left.
#[test]
fn zeros_have_their_row() {
    let state =
        Library.run(&tape("qubits 3\nx 1\ncnot 1 2\nsx 1\ncnot 1 2\n")).expect("a run").state;
    let read = |list: &[usize], bits: &[u8]| Library.marginal_probability(&state, list, bits);
    let found = |row| Ok(Number { value: 0.0, row: Some(row) });
    assert_eq!(read(&[0], &[0]), Ok(Number::from(1.0)));
    assert_eq!(read(&[0], &[1]), found(0));
    // Qubits 1 and 2 share one excitation: each alone is uncertain, and they never read the same.
    for q in [1, 2] {
        assert_eq!(Library.expectation_z_product(&state, &[q]), found(0));
        assert_eq!(read(&[q], &[0]), Ok(Number::from(0.5)));
    }
    assert_eq!(Library.expectation_z_product(&state, &[1, 2]), Ok(Number::from(-1.0)));
    assert_eq!(Library.expectation_z_product(&state, &[0, 1]), found(2));
    assert_eq!(read(&[2, 1], &[1, 1]), found(2));
    assert_eq!(read(&[2, 1, 0], &[1, 1, 0]), found(4));
    assert_eq!(read(&[2, 1, 0], &[1, 1, 1]), found(0));
    assert_eq!(read(&[2, 1, 2], &[1, 1, 0]), Ok(Number::from(0.0)));
    assert_eq!(Library.probability(&state, 0b110), Ok(0.0));
}

/// There is work for every list, whatever is left of it.
#[test]
fn lists_of_any_length() {
    let state = Library.run(&tape(LIST)).expect("a run").state;
    for set in 0..32 {
        let list: Vec<usize> = (0..5).filter(|q| set >> q & 1 == 1).collect();
        let bits = vec![0; list.len()];
        let product = Library.expectation_z_product(&state, &list);
        let marginal = Library.marginal_probability(&state, &list, &bits);
        assert!(product.is_ok() && marginal.is_ok(), "{list:?}");
        let more = [&list[..], &[0, 1, 2, 3, 4], &[4, 3, 2, 1, 0]].concat();
        assert_eq!(Library.expectation_z_product(&state, &more), product);
        let (twice, bits) = (list.repeat(2), bits.repeat(2));
        assert_eq!(Library.expectation_z_product(&state, &twice), Ok(Number::from(1.0)));
        assert_eq!(Library.marginal_probability(&state, &twice, &bits), marginal);
    }
    let none = State::vacuum(0);
    assert_eq!(Library.expectation_z_product(&none, &[]), Ok(Number::from(1.0)));
    assert_eq!(Library.marginal_probability(&none, &[], &[]), Ok(Number::from(1.0)));
}

#[test]
fn refusals_have_number_and_place() {
    let mut state = Library.run(&tape(LIST)).expect("a run").state;
    let refused = |number, place| Err(Refusal { number, place });
    assert_eq!(Library.expectation_z_product(&State::vacuum(129), &[0]), refused(16, 0));
    assert_eq!(Library.expectation_z_product(&state, &[5]), refused(19, 0));
    assert_eq!(Library.expectation_z_product(&state, &[3, 5]), refused(19, 1));
    assert_eq!(Library.expectation_z_product(&state, &[0, 1, 9]), refused(19, 2));
    assert_eq!(Library.expectation_z_product(&State::vacuum(0), &[0]), refused(19, 0));
    assert_eq!(Library.marginal_probability(&state, &[0], &[2]), refused(18, 0));
    assert_eq!(Library.sample(&state, 1, &[0.5; 4]).err(), Some(Refusal { number: 21, place: 0 }));
    let two = Operation::Two { mode: 4, map: [0.0; 16] };
    assert_eq!(Library.apply(&mut state, &two), Err(Refusal { number: 17, place: 0 }));
    let gate = &tape("qubits 2\nx 0\n")[20..];
    let bad = [tape("qubits 1\n"), gate.to_vec(), vec![0x51]].concat();
    assert_eq!(Library.compile(&bad).err(), Some(Refusal { number: 5, place: 24 }));
    assert_eq!(Library.run(b"QH").err(), Some(Refusal { number: 1, place: 0 }));
}

#[test]
fn labels_are_parts_of_the_tape() {
    let tape = tape(LIST);
    assert_eq!(Library.label(&tape, 0), Some(&b"a"[..]));
    assert_eq!(Library.label(&tape, 1), Some(&b""[..]));
    assert_eq!(Library.label(&tape, 2), None);
    assert_eq!(Library.label(&tape[..tape.len() - 1], 0), None);
}

/// The largest tapes fit into what the wrapper lends.
#[test]
fn room_for_the_largest() {
    let layers = |text: &str| format!("qubits 128\ndrop on\n{text}");
    let phases: String =
        (0..1024).map(|k| format!("cphase {} {} 0.3\n", k % 127, k % 127 + 1)).collect();
    assert_eq!(Library.run(&tape(&layers(&phases))).err(), None);
    let flips: String = (0..1024).map(|k| format!("iswap {} {}\n", k % 127, k % 127 + 1)).collect();
    let state = Library.run(&tape(&layers(&flips))).expect("a run").state;
    let all: Vec<usize> = (0..128).collect();
    let one = Ok(Number::from(1.0));
    assert_eq!(Library.expectation_z_product(&state, &all), one);
    assert_eq!(Library.marginal_probability(&state, &all, &[0; 128]), one);
    assert_eq!(Library.expectation_z_product(&state, &[127]), one);
}
