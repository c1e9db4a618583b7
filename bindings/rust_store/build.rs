// The script of the crate lrc_coder serves both.
include!("../rust/build.rs");
