//! The C interface of `libsfs.a`, as `include/sfs.h` has it.

extern "C" {
    pub fn sfs_format(image: *mut u8, image_len: usize, space: u64) -> u32;
    pub fn sfs_entry_name(entry: *const u8, entry_len: usize) -> usize;
    pub fn sfs_cache_start(slots: *mut u32, slots_len: usize);
    pub fn sfs_cache_read(
        device: *mut u8,
        device_len: usize,
        data: *mut u8,
        data_len: usize,
        slots: *mut u32,
        slots_len: usize,
        block: u32,
        buf: *mut u8,
        buf_len: usize,
    ) -> u32;
    pub fn sfs_cache_write(
        device: *mut u8,
        device_len: usize,
        data: *mut u8,
        data_len: usize,
        slots: *mut u32,
        slots_len: usize,
        block: u32,
        buf: *const u8,
        buf_len: usize,
    ) -> u32;
    pub fn sfs_cache_sync(
        device: *mut u8,
        device_len: usize,
        data: *const u8,
        data_len: usize,
        slots: *mut u32,
        slots_len: usize,
    ) -> u32;
}

/// The other calls, on a card: each takes an image and scratch, with their lengths, before what is its own.
macro_rules! calls {
    ($image:ty: $($call:ident($($own:ident: $kind:ty),*);)*) => {
        extern "C" {
            $(
                pub fn $call(
                    image: $image,
                    image_len: usize,
                    scratch: *mut u32,
                    scratch_len: usize,
                    $($own: $kind),*
                ) -> u32;
            )*
        }
    };
}

calls! { *const u8:
    sfs_check(blocks: *mut u32, unused: *mut u32);
    sfs_metadata(inode: u32, kind: *mut u32, size: *mut u32, blocks: *mut u32, links: *mut u32);
    sfs_read(inode: u32, offset: u64, buf: *mut u8, buf_len: usize, count: *mut u32);
    sfs_find(dir: u32, name: *const u8, name_len: usize, number: *mut u32);
    sfs_entry(dir: u32, index: u64, entry: *mut u8);
}

calls! { *mut u8:
    sfs_write(inode: u32, offset: u64, data: *const u8, data_len: usize, count: *mut u32);
    sfs_resize(inode: u32, len: u64);
    sfs_create(dir: u32, name: *const u8, name_len: usize, kind: u32, number: *mut u32);
    sfs_link(dir: u32, name: *const u8, name_len: usize, inode: u32);
    sfs_unlink(dir: u32, name: *const u8, name_len: usize);
    sfs_move(
        dir: u32, old_name: *const u8, old_name_len: usize,
        target: u32, new_name: *const u8, new_name_len: usize
    );
}
