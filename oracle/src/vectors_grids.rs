//! Vectors about grids: widths, padding, and what has no grid.

use crate::vectors::Group;

pub const GRIDS: &[Group] = &[(
    "grids: rank 1 and 2, widths, no padding, and what has no grid",
    &[
        "grid [1] {0}",
        "grid [10] {0}",
        "grid [11] {0}",
        "grid [3] {0:T(2)}",
        "grid [7] {0:T(2)(3)}",
        "grid [5] {0:T(3)(2,2)}",
        "grid [100] {0}",
        "grid [101] {0}",
        "grid [1,1] {0,1}",
        "grid [1,10] {0,1}",
        "grid [10,1] {1,0:T(3)}",
        "grid [2,3] {0,1}",
        "grid [4,8] {1,0:T(2,4)(2,1)}",
        "grid [4,8] {0,1:T(2,4)(2,1)}",
        "grid [3,5] {0,1:T(2,2)}",
        "grid [3,5] {1,0:T(2)}",
        "grid [3,5] {1,0:T(2,2)(3)}",
        "grid [3,5] {1,0:T(2,2)(2,2,1,1)}",
        "grid [3,5] {1,0:T(2,2)(2,1)(3)}",
        "grid [2,500] {1,0:T(1,1000)}",
        "grid [64,64] {1,0:T(8,8)(4,2)}",
        "grid [4096] {0}",
        "grid [4097] {0}",
        "grid   [4097] {0}",
        " grid[4097]{0}",
        "grid [2,2049] {1,0}",
        "grid [1] {0:T(1024)(5)}",
        "grid [2,2,2] {2,1,0}",
        "  grid  [ 2 , 2 , 2 ] { 2 , 1 , 0 }",
        "grid [1,1,1,1,1,1] {0,1,2,3,4,5}",
    ],
)];
