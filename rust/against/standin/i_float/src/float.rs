pub mod number {
    /// UNREACHED, by the name that the float mathematics uses it under.
    pub trait FloatNumber {
        /// UNREACHED.
        fn sqrt(self) -> Self;
    }

    impl FloatNumber for f64 {
        fn sqrt(self) -> f64 {
            unreachable!("float mathematics")
        }
    }
}
