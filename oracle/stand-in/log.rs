//! Stand-in for the crate `log`: accepts what is traced and drops it.

/// Compiles its arguments, so that a slip in them shows, and never evaluates them.
#[macro_export]
macro_rules! trace {
    ($($argument:tt)*) => {
        if false {
            let _ = format_args!($($argument)*);
        }
    };
}
