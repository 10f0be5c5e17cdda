//! The nine calls that a function may make of the host. `docs/FUNCTIONS.md` tells what each does and what its
//! answer tells; every range is a place in the function's own memory and a number of bytes.

#![allow(dead_code)]

/// What `read` answers for a key that has no value here.
pub const ABSENT: u32 = 0xffff_ffff;

#[link(wasm_import_module = "trapeze")]
extern "C" {
    #[link_name = "input"]
    fn host_input(to: *mut u8, cap: u32) -> u32;
    #[link_name = "read"]
    fn host_read(key: *const u8, key_size: u32, to: *mut u8, cap: u32) -> u32;
    #[link_name = "write"]
    fn host_write(key: *const u8, key_size: u32, value: *const u8, size: u32) -> u32;
    #[link_name = "delete"]
    fn host_delete(key: *const u8, key_size: u32) -> u32;
    #[link_name = "send"]
    fn host_send(channel: *const u8, channel_size: u32, from: *const u8, size: u32);
    #[link_name = "raise"]
    fn host_raise(label: *const u8, label_size: u32);
    #[link_name = "reply"]
    fn host_reply(from: *const u8, size: u32);
    #[link_name = "own_label"]
    fn host_own_label(to: *mut u8, cap: u32) -> u32;
    #[link_name = "release"]
    fn host_release(gate: *const u8, gate_size: u32, from: *const u8, size: u32);
}

/// Copies the front of the input; answers how many bytes it has.
pub fn input(to: &mut [u8]) -> u32 {
    unsafe { host_input(to.as_mut_ptr(), to.len() as u32) }
}

/// Copies the front of the key's latest visible value; answers how many bytes it has, or `ABSENT`.
pub fn read(key: &[u8], to: &mut [u8]) -> u32 {
    unsafe { host_read(key.as_ptr(), key.len() as u32, to.as_mut_ptr(), to.len() as u32) }
}

/// Writes at the current label; answers whether it fitted.
pub fn write(key: &[u8], value: &[u8]) -> bool {
    unsafe { host_write(key.as_ptr(), key.len() as u32, value.as_ptr(), value.len() as u32) == 0 }
}

/// Writes that the key has no value at the current label; answers whether it fitted.
pub fn delete(key: &[u8]) -> bool {
    unsafe { host_delete(key.as_ptr(), key.len() as u32) == 0 }
}

/// Sends a message into a channel. Nothing tells whether it arrived.
pub fn send(channel: &[u8], message: &[u8]) {
    unsafe { host_send(channel.as_ptr(), channel.len() as u32, message.as_ptr(), message.len() as u32) }
}

/// Moves on to the join of the current label and the named one; where that is another label, the turn ends here.
pub fn raise(label: &[u8]) {
    unsafe { host_raise(label.as_ptr(), label.len() as u32) }
}

/// Replies to the client. Nothing tells whether the reply was given.
pub fn reply(bytes: &[u8]) {
    unsafe { host_reply(bytes.as_ptr(), bytes.len() as u32) }
}

/// Copies the front of the current label's name; answers how many bytes it has.
pub fn own_label(to: &mut [u8]) -> u32 {
    unsafe { host_own_label(to.as_mut_ptr(), to.len() as u32) }
}

/// Releases bytes through a gate. Nothing tells whether they passed.
pub fn release(gate: &[u8], bytes: &[u8]) {
    unsafe { host_release(gate.as_ptr(), gate.len() as u32, bytes.as_ptr(), bytes.len() as u32) }
}
