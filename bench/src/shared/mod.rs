// What the benchmarks of packing, re-tiling and offset tables use: random cases, the measuring, and an ordinary packer. None uses every item.
#![allow(dead_code)]
pub mod cases;
#[path = "../fold/clock.rs"]
pub mod clock;
pub mod measure;
pub mod packer;
