//! Logging that says nothing. Its arguments are named in a closure that is
//! never called, so that nothing is evaluated and nothing counts as unused.

macro_rules! silent {
    ($($level:ident)*) => {
        $(silent!(@one $level, $);)*
    };
    (@one $level:ident, $d:tt) => {
        #[macro_export]
        macro_rules! $level {
            ($format:literal $d(, $d argument:expr)* $d(,)?) => {
                $d(let _ = || { let _ = &$d argument; };)*
            };
        }
    };
}
silent!(trace info warn error);
