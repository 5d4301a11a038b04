//! The labelled form of `const_assert` of the crate `static_assertions`: a false condition does not compile.

#[macro_export]
macro_rules! const_assert {
    ($label:ident; $condition:expr) => {
        const _: [(); 0 - !($condition) as usize] = [];
    };
}
