//! rustfst as published, with stand-ins for what it leans on. The build script lays both out.

// Much of what is published is there for parts of rustfst that are not.
#![allow(dead_code, unused_imports, unused_macros)]

include!(concat!(env!("OUT_DIR"), "/rustfst/root.rs"));
