//! Stand-in for `arrayref`: a part of a slice as a reference to an array.

#[macro_export]
macro_rules! array_ref {
    ($slice:expr, $offset:expr, $length:expr) => {{
        let offset = $offset;
        <&[_; $length]>::try_from(&$slice[offset..offset + $length]).unwrap()
    }};
}
