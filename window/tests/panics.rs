//! The two traits that cannot refuse panic instead, as they say. In a program of its own, since it silences panics.

use shawltide::{BitSet, Refusal, MAX_BITS};
use std::panic::{catch_unwind, set_hook};

/// What the panic says; nothing where there is none.
fn panic_of(act: impl FnOnce() + std::panic::UnwindSafe) -> Option<String> {
    let said = catch_unwind(act).err()?;
    said.downcast_ref::<String>().cloned()
}

#[test]
fn numbers_that_have_no_place() -> Result<(), Refusal> {
    set_hook(Box::new(|_| {}));
    for number in [MAX_BITS, u64::MAX] {
        let said = panic_of(|| drop(BitSet::from_iter([0, number])));
        assert!(said.expect("it panics").contains("refusal 10: "));
    }
    assert_eq!(panic_of(|| drop(BitSet::from_iter([MAX_BITS - 1]))), None);

    let set = BitSet::empty(64)?;
    let said = panic_of(|| set.clone().extend([63, 64]));
    assert!(said.expect("it panics").starts_with("64: refusal 9: "));
    assert_eq!(panic_of(|| set.clone().extend([63])), None);
    Ok(())
}
