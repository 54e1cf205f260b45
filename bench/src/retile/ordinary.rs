// An ordinary re-tiling: the source unpacked into a vector of elements, and that packed into the destination, both by the machine's division.
// It has no mark and no steps, so a run that is cut off starts again.
use crate::shared::packer::{pack, product, unpack, Layout, Refused, SHAPE};

pub fn retile(sizes: &[u64], from: &Layout, to: &Layout, source: &[u32], cells: &mut [u32]) -> Result<(), Refused> {
    let mut elements = vec![0; product(sizes).ok_or(SHAPE)? as usize];
    unpack(sizes, from, source, &mut elements)?;
    pack(sizes, to, &elements, cells)
}
