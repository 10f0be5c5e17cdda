//! Keeps a note at a label. The input is the label's name, and behind a space the note; without one the note that is
//! kept there is deleted. The reply says at which label that was.

#![no_std]
#![no_main]

#[path = "../include/trapeze.rs"]
mod trapeze;

#[panic_handler]
fn panic(_: &core::panic::PanicInfo) -> ! {
    core::arch::wasm32::unreachable()
}

/// The front of a buffer, of as many bytes as a call answered or all if there are fewer.
fn front(buffer: &[u8], size: u32) -> &[u8] {
    buffer.get(..size as usize).unwrap_or(buffer)
}

/// Replies with two texts, one behind the other.
fn reply_both(first: &[u8], second: &[u8]) {
    let mut both = [0; 96];
    for (to, from) in both.iter_mut().zip(first.iter().chain(second)) {
        *to = *from;
    }
    trapeze::reply(front(&both, (first.len() + second.len()) as u32));
}

#[no_mangle]
pub extern "C" fn handle() {
    let (mut input, mut label) = ([0; 1024], [0; 64]);
    let size = trapeze::input(&mut input);
    let mut words = front(&input, size).splitn(2, |byte| *byte == b' ');
    trapeze::raise(words.next().unwrap_or(b""));
    let done = match words.next() {
        Some(note) => trapeze::write(b"note", note),
        None => trapeze::delete(b"note"),
    };
    let size = trapeze::own_label(&mut label);
    reply_both(if done { b"done at " } else { b"no room at " }, front(&label, size));
}
