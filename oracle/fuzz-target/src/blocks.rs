//! Which blocks of the library's own code are reached. The library comes without counters, so each block's first byte
//! is made a trap; the first time that a block is reached, the trap's signal puts the byte back and raises a counter
//! that libFuzzer reads beside those of the judge.

use std::sync::atomic::{AtomicUsize, Ordering};

/// More than the library's blocks.
const MOST: usize = 1 << 15;
const TRAP: u8 = 0xcc;

#[link_section = "__libfuzzer_extra_counters"]
static mut COUNTERS: [u8; MOST] = [0; MOST];

static mut BLOCKS: Vec<(usize, u8)> = Vec::new();
static REACHED: AtomicUsize = AtomicUsize::new(0);

extern "C" {
    fn desk_check_book(book: *const u8, length: usize) -> u32;
}

/// Blocks reached, and all.
pub fn reached() -> (usize, usize) {
    // Safe: written once, in `set`, before any input runs.
    (REACHED.load(Ordering::Relaxed), unsafe { (*std::ptr::addr_of!(BLOCKS)).len() })
}

/// Addresses of the blocks that no input has reached, as they stand in the file.
pub fn unreached(base: usize) -> Vec<usize> {
    let blocks = unsafe { &*std::ptr::addr_of!(BLOCKS) };
    // Safe: the library's code is mapped and readable.
    blocks.iter().filter(|(at, _)| unsafe { *(*at as *const u8) } == TRAP).map(|(at, _)| at - base).collect()
}

/// Sets the traps. The file has an address in each line, in hexadecimal; the first is that of `desk_check_book`.
/// A conditional jump may be turned round, to show that a fault is found. Returns the address that the file's are counted from.
pub fn set(path: &str, flipped: Option<usize>) -> usize {
    let text = std::fs::read_to_string(path).unwrap_or_else(|e| panic!("{path}: {e}"));
    let mut lines = text.lines().map(|line| usize::from_str_radix(line, 16).unwrap_or_else(|_| panic!("{path}: no address: {line}")));
    let base = (desk_check_book as *const () as usize).wrapping_sub(lines.next().expect("the file's first address"));
    let mut places: Vec<usize> = lines.map(|at| base.wrapping_add(at)).collect();
    places.sort();
    places.dedup();
    assert!(!places.is_empty() && places.len() <= MOST, "{path}: {} blocks", places.len());
    let page = 4096;
    let (low, high) = (places[0] / page * page, places[places.len() - 1] + 1);
    // Safe: the addresses are first bytes of instructions of the library, on which nothing runs yet; this thread alone runs it.
    unsafe {
        let all = libc::PROT_READ | libc::PROT_WRITE | libc::PROT_EXEC;
        assert_eq!(libc::mprotect(low as *mut _, high - low, all), 0, "the library's code stays read-only");
        if let Some(jump) = flipped {
            turned_round(base.wrapping_add(jump));
        }
        BLOCKS = places.iter().map(|at| (*at, *(*at as *const u8))).collect();
        let mut action: libc::sigaction = std::mem::zeroed();
        action.sa_sigaction = trapped as *const () as usize;
        action.sa_flags = libc::SA_SIGINFO;
        assert_eq!(libc::sigaction(libc::SIGTRAP, &action, std::ptr::null_mut()), 0, "no handler");
        for at in places {
            *(at as *mut u8) = TRAP;
        }
    }
    base
}

/// Makes a conditional jump one of the opposite condition.
unsafe fn turned_round(at: usize) {
    let code = at as *mut u8;
    match *code {
        0x70..=0x7f => *code ^= 1,
        0x0f => *code.add(1) ^= 1,
        other => panic!("no conditional jump: {other:02x}"),
    }
}

/// Puts the byte back, raises the counter and runs the block again from its first byte.
extern "C" fn trapped(_: libc::c_int, _: *mut libc::siginfo_t, context: *mut libc::c_void) {
    // Safe: the kernel lends the context; the blocks are only read.
    unsafe {
        let registers = &mut (*(context as *mut libc::ucontext_t)).uc_mcontext.gregs;
        let at = registers[libc::REG_RIP as usize] as usize - 1;
        let blocks = &*std::ptr::addr_of!(BLOCKS);
        let Ok(place) = blocks.binary_search_by_key(&at, |block| block.0) else { libc::abort() };
        *(at as *mut u8) = blocks[place].1;
        registers[libc::REG_RIP as usize] = at as i64;
        *(std::ptr::addr_of_mut!(COUNTERS) as *mut u8).add(place) = 1;
        REACHED.fetch_add(1, Ordering::Relaxed);
    }
}
