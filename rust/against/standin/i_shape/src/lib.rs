//! A stand-in for i_shape: the one name that the variable-width stroke's text
//! needs to build. Its marks are those of the stand-in for i_float.

pub mod int {
    pub mod shape {
        use i_float::int::point::IntPoint;

        /// UNREACHED: the shapes beside the debug list, which the overlay
        /// engine would make.
        pub type IntShapes<I> = Vec<Vec<Vec<IntPoint<I>>>>;
    }
}
