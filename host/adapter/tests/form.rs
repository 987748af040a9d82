//! Functions go to bytes and back, or the byte form has no room for them. What rewrites the bytes
//! here is the Rust, so that no archive is needed.

mod common;

use adapter::{Encoded, Foreign, What};
use common::*;
use mir::MirFunction;
use oracle::form::{Type, TypeNo};
use oracle::{read, run_oracle, run_pass, Outcome, Settings};

/// Bytes that nothing was done to leave the function as it was.
fn assert_there_and_back(function: &MirFunction) {
    let encoded = Encoded::of(function).expect("there is room for it");
    assert!(read(encoded.bytes()).is_ok());
    let mut back = function.clone();
    assert_eq!(encoded.put_back(encoded.bytes(), &mut back), Ok(()));
    assert_eq!(back, *function);
}

/// Bytes that are rewritten and put back are the function that is rewritten; whether it changed.
fn assert_rewritten(function: &MirFunction) -> bool {
    let encoded = Encoded::of(function).expect("there is room for it");
    let outcome = run_oracle(encoded.bytes(), Settings::default(), usize::MAX);
    let mut theirs = function.clone();
    let direct = run_pass(&mut theirs, Settings::default());
    let Outcome::Lowered { result, counts, output } = outcome else {
        assert_eq!(direct.map_err(|refusal| refusal.number), Err(10));
        return false;
    };
    assert_eq!(direct, Ok((result, counts)));
    let mut ours = function.clone();
    assert_eq!(encoded.put_back(&output, &mut ours), Ok(()));
    assert_eq!(ours, theirs);
    result
}

#[test]
fn written_functions_go_there_and_back() {
    for function in written() {
        assert_there_and_back(&function);
        assert!(assert_rewritten(&function));
    }
}

/// Each type has one row, behind the rows of its parts.
#[test]
fn types_are_numbered_once() {
    let encoded = Encoded::of(&nested_struct()).expect("there is room for it");
    let types = read(encoded.bytes()).expect("it is a routine").types;
    let kinds: Vec<u8> = types.iter().map(Type::byte).collect();
    // Felt and U32, the struct of both, and the struct of two of those.
    assert_eq!(kinds, [0, 2, 4, 4]);
    let part = |row: usize| types[row].part(0).map(TypeNo::index);
    assert_eq!((part(2), part(3)), (Some(0), Some(2)));
}

#[test]
fn made_functions_go_there_and_back() {
    let mut changed = 0;
    for function in made_functions(1, 1500) {
        assert_there_and_back(&function);
        changed += u64::from(assert_rewritten(&function));
    }
    assert!(changed > 500, "{changed}");
}

#[test]
fn what_is_too_large_is_told() {
    let told = |large: &MirFunction| Encoded::of(large).err().map(|misfit| misfit.what);
    for (what, function) in too_large() {
        assert_eq!(told(&function), Some(what));
    }
    let misfit = Encoded::of(&too_large()[0].1).expect_err("it is too large");
    assert_eq!((misfit.what, misfit.found, misfit.most), (What::Blocks, 33, 32));
    assert_eq!(misfit.to_string(), "33 blocks (most 32)");
}

/// Bytes of another function, other bytes, and another function: nothing is put back.
#[test]
fn what_is_no_rewriting_is_not_put_back() {
    let encoded = Encoded::of(&pair()).expect("there is room for it");
    let other = Encoded::of(&nested_struct()).expect("there is room for it");
    let mut longer = encoded.bytes().to_vec();
    longer.push(0);
    for bytes in [&[][..], other.bytes(), &longer, &encoded.bytes()[1..]] {
        let mut function = pair();
        assert_eq!(encoded.put_back(bytes, &mut function), Err(Foreign));
        assert_eq!(function, pair());
    }
    let mut function = nested_struct();
    assert_eq!(encoded.put_back(encoded.bytes(), &mut function), Err(Foreign));
    assert_eq!(function, nested_struct());
    assert_eq!(Foreign.to_string(), "the bytes are no rewriting of the function");
}

/// A name, callee, message or comment that the function does not have is no rewriting of it.
#[test]
fn foreign_numbers_are_not_put_back() {
    let function = rebuilding_call();
    let encoded = Encoded::of(&function).expect("there is room for it");
    let mut refused = 0;
    for at in 0..encoded.bytes().len() {
        let mut bytes = encoded.bytes().to_vec();
        bytes[at] = 0xff;
        let mut back = function.clone();
        if encoded.put_back(&bytes, &mut back).is_err() {
            assert_eq!(back, function);
            refused += u64::from(read(&bytes).is_ok());
        }
    }
    assert!(refused > 10, "{refused}");
}
