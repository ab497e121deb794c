//! The frame round the crate's own text: its modules, and the little that the
//! text names and that is in files of the overlay engine or not at hand. Every
//! file that is named here without a body is the crate's own, unchanged, but
//! for `stroke` and `kerb`; below `arc` and `math` there is a `float` that is
//! not, and below `stroke` a `bounds`. The marks are those of the stand-in for
//! i_float.

// The text has more than the variable-width stroke uses.
#![allow(dead_code, unused_imports)]

extern crate alloc;

pub use i_float;

pub mod core {
    pub mod edge_data;

    pub mod overlay {
        /// FORCED: the enum of core/overlay.rs, whose file names the engine.
        /// UNREACHED: the stroke's segments bear their counts already.
        #[derive(Debug, Clone, Copy, PartialEq)]
        pub enum ShapeType {
            Subject,
            Clip,
        }
    }
}

pub(crate) mod geom {
    pub(crate) mod x_segment;

    pub(crate) mod line_range {
        /// FORCED: fields and type. UNREACHED.
        pub(crate) struct LineRange<I> {
            pub(crate) min: I,
            pub(crate) max: I,
        }
    }
}

pub mod segm {
    pub mod boolean;
    pub(crate) mod segment;
    pub(crate) mod winding;
}

pub mod mesh {
    pub mod math;
    mod subject;

    pub mod int {
        pub mod arc;
        mod join;
        pub(crate) mod math;
        pub mod style;

        pub mod stroke {
            mod bounds;
            mod builder;
            mod builder_join;
            mod cap;
            mod kerb;
            mod section;

            pub use kerb::Kerb;
        }

        pub mod variable_stroke {
            mod builder;
            mod builder_join;
            mod debug;
            mod math;
            mod section;
            mod stroke;
            mod style;

            pub use debug::VariableStrokeDebugEdgeKind;
            pub use stroke::Stroke;
            pub use style::IntVariableStrokeStyle;
        }
    }
}
