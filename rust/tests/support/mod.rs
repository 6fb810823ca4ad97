//! What the tests share: books before their bytes, the calls of both sides, and guarded buffers.

pub mod buffer;
pub mod calls;
pub mod draft;
