//! A stand-in for the crate `log`: boomphf calls `error!` alone, just before it panics, and the panic says enough.

#[macro_export]
macro_rules! error {
    ($($part:tt)*) => {{
        let _ = format_args!($($part)*);
    }};
}
