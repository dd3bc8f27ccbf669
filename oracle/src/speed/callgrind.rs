//! Requests to callgrind: a few instructions that do nothing elsewhere, and that valgrind knows.

const TOGGLE: u64 = 0x4354_0002;
const DUMP: u64 = 0x4354_0003;

/// Begins to count, or ends it.
pub fn toggle() {
    request(TOGGLE, 0);
}

/// Writes down what was counted, under a name, and begins anew from nothing.
pub fn dump(name: &str) {
    let name = std::ffi::CString::new(name).expect("a name has no zero byte");
    request(DUMP, name.as_ptr() as u64);
}

/// The request as valgrind defines it for x86-64: rax has the place of its number and arguments,
/// then come four turns of rdi and an exchange.
#[inline(never)]
fn request(number: u64, argument: u64) {
    let words = [number, argument, 0, 0, 0, 0];
    unsafe {
        std::arch::asm!(
            "rol rdi, 3",
            "rol rdi, 13",
            "rol rdi, 61",
            "rol rdi, 51",
            "xchg rbx, rbx",
            in("rax") words.as_ptr(),
            inout("rdx") 0u64 => _,
            inout("rdi") 0u64 => _,
        );
    }
}
