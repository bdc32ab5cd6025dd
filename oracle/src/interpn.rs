// The Rust's root, as build.rs writes it.
#![allow(dead_code)]
include!(concat!(env!("OUT_DIR"), "/root.rs"));
