pub mod int;
pub mod product_uint;
pub mod uint;
pub mod wide_int;
