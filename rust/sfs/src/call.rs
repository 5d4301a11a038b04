//! Calls of the library on a card's image and scratch.

/// `call!(self.look, sfs_check(..))` for those that only read the image, and `self.edit` for the others: image and
/// scratch go as pointers with their lengths, before what is the call's own, and the number that comes back becomes the
/// answer. Both are borrowed over the call, so for safety only the call's own pointers count: each is that of a slice
/// with the length after it, or of a result, and what the call may change overlaps nothing.
macro_rules! call {
    ($card:ident.look, $call:ident($($own:expr),*)) => {
        $card.look(|image, scratch| call!(image.as_ptr(), scratch, $call($($own),*)))
    };
    ($card:ident.edit, $call:ident($($own:expr),*)) => {
        $card.edit(|image, scratch| call!(image.as_mut_ptr(), scratch, $call($($own),*)))
    };
    ($image:ident.$place:ident(), $scratch:ident, $call:ident($($own:expr),*)) => {
        $crate::error::answer($crate::raw::$call(
            $image.$place(),
            $image.len(),
            $scratch.as_mut_ptr(),
            $scratch.len(),
            $($own),*
        ))
    };
}
