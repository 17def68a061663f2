//! The deepest stack of one call, in bytes: the stack below us is painted, the call made, and the paint that is left
//! counted.

const ROOM: usize = 1 << 20;
/// Below the stack pointer and not painted: the red zone. A call that reaches less deep is not told from one that
/// reaches this far.
const ZONE: usize = 256;

/// The stack pointer, after all below the zone is painted: that part lies below every frame in use and inside the stack
/// of `depth`'s thread.
#[cfg(target_arch = "x86_64")]
#[inline(always)]
fn painted() -> usize {
    let sp: usize;
    unsafe {
        std::arch::asm!(
            "mov {sp}, rsp",
            "lea rdi, [rsp - {zone} - {room}]",
            "mov ecx, {room}",
            "mov al, 0xA5",
            "rep stosb",
            sp = out(reg) sp, zone = const ZONE, room = const ROOM,
            out("rdi") _, out("rcx") _, out("al") _,
        )
    };
    sp
}

/// Elsewhere by stores, from where this frame is.
#[cfg(not(target_arch = "x86_64"))]
#[inline(always)]
fn painted() -> usize {
    let mark = 0u8;
    let sp = std::hint::black_box(&raw const mark) as usize;
    for place in sp - ZONE - ROOM..sp - ZONE {
        unsafe { core::ptr::write_volatile(place as *mut u8, 0xa5) };
    }
    sp
}

#[inline(never)]
fn measure(call: &mut dyn FnMut()) -> usize {
    let sp = painted();
    call();
    let (mut place, end) = (sp - ZONE - ROOM, sp - ZONE);
    while place < end && unsafe { core::ptr::read_volatile(place as *const u8) } == 0xa5 {
        place += 1;
    }
    assert!(place > sp - ZONE - ROOM, "deeper than the painted part");
    sp - place
}

/// Bytes of stack below the caller that `call` reaches, its own frame and return addresses included.
pub fn depth(mut call: impl FnMut() + Send) -> usize {
    std::thread::scope(|scope| {
        let thread = std::thread::Builder::new().stack_size(4 << 20);
        thread.spawn_scoped(scope, || measure(&mut call)).unwrap().join().unwrap()
    })
}
