// Stands for the crate i_overlay, which clips polygons. Nothing here is ever run.

pub mod i_float {
    pub mod float {
        pub mod compatible {
            pub trait FloatPointCompatible {
                type Scalar;
                fn from_xy(x: Self::Scalar, y: Self::Scalar) -> Self;
                fn x(&self) -> Self::Scalar;
                fn y(&self) -> Self::Scalar;
            }
        }
    }
}
