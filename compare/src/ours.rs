//! The proved static library: bare calls for timings, and guarded calls for comparing. The declarations are those of include/, which
//! tools/check-layout holds against the library's source.

pub mod keys;
pub mod melt;
pub mod overflow;
pub mod pages;
pub mod side;
pub mod stack;
pub mod work;
