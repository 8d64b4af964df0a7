//! That memory is made and copied on the heap alone, without optimisation too.

use std::thread;

use wurzsige_sys::Memory;

#[test]
fn a_small_stack_is_enough_for_a_desk_s_memory() {
    let thread = thread::Builder::new().stack_size(64 * 1024);
    let copied = thread.spawn(|| {
        let mut memory = Memory::boxed();
        memory.cells_mut()[4_095] = 7;
        memory.marks_mut()[511] = 1;
        let copy = memory.boxed_copy();
        *copy == *memory
    });
    assert!(copied.expect("a thread").join().expect("no overflow"));
}
