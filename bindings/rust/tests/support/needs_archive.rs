//! Tests that can't run everywhere.

/// A test that needs the archive. Where it is not linked the test is ignored, and its line says why.
macro_rules! needs_archive {
    ($(fn $name:ident() $body:block)*) => {
        $(
            #[test]
            #[cfg_attr(
                not(all(target_arch = "x86_64", target_os = "linux")),
                ignore = "SKIPPED: the archive is for x86-64 Linux, and this target is not"
            )]
            #[cfg_attr(
                all(target_arch = "x86_64", target_os = "linux", not(threadmolar_archive)),
                ignore = "SKIPPED: there is no libthreadmolar.a; `bin/staticlib` makes it"
            )]
            fn $name() $body
        )*
    };
}
