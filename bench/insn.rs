//! A plugin of qemu-user that counts executed instructions. At each getppid of the program it writes the count so
//! far to standard error, so that a program marks what it wants counted by asking for its parent.
//!
//! The functions are those of qemu's plugin interface, version 1. The count is kept by code that qemu itself puts
//! before each translated block, without a call.

use std::os::raw::{c_char, c_int, c_uint, c_void};
use std::sync::atomic::{AtomicU64, Ordering};

const GETPPID: i64 = 110;
const ADD_U64: c_int = 0;

static COUNT: AtomicU64 = AtomicU64::new(0);

#[no_mangle]
#[allow(non_upper_case_globals)]
pub static qemu_plugin_version: c_int = 1;

type SystemCall = extern "C" fn(u64, c_uint, i64, u64, u64, u64, u64, u64, u64, u64, u64);

extern "C" {
    fn qemu_plugin_register_vcpu_tb_trans_cb(id: u64, act: extern "C" fn(u64, *mut c_void));
    fn qemu_plugin_tb_n_insns(block: *const c_void) -> usize;
    fn qemu_plugin_register_vcpu_tb_exec_inline(block: *mut c_void, act: c_int, at: *mut c_void, value: u64);
    fn qemu_plugin_register_vcpu_syscall_cb(id: u64, act: SystemCall);
}

extern "C" fn translated(_id: u64, block: *mut c_void) {
    unsafe {
        let count = qemu_plugin_tb_n_insns(block) as u64;
        let at = &COUNT as *const AtomicU64 as *mut c_void;
        qemu_plugin_register_vcpu_tb_exec_inline(block, ADD_U64, at, count);
    }
}

#[allow(clippy::too_many_arguments)]
extern "C" fn called(_: u64, _: c_uint, number: i64, _: u64, _: u64, _: u64, _: u64, _: u64, _: u64, _: u64, _: u64) {
    if number == GETPPID {
        eprintln!("mark {}", COUNT.load(Ordering::Relaxed));
    }
}

/// # Safety
/// Called by qemu alone.
#[no_mangle]
pub unsafe extern "C" fn qemu_plugin_install(
    id: u64,
    _info: *const c_void,
    _count: c_int,
    _words: *const *const c_char,
) -> c_int {
    qemu_plugin_register_vcpu_tb_trans_cb(id, translated);
    qemu_plugin_register_vcpu_syscall_cb(id, called);
    0
}
