// Input that breaks a rule: every version refuses it with the same number and writes nothing.
use crate::shared::cases::Case;
use crate::shared::packer::{pack, unpack, Layout};
use crate::{library_pack, library_unpack, vectors};

fn case(sizes: &[u64], minor_to_major: &[usize], tiles: &[&[u64]]) -> Case {
    let tiles = tiles.iter().map(|t| t.to_vec()).collect();
    Case { sizes: sizes.to_vec(), layout: Layout { minor_to_major: minor_to_major.to_vec(), tiles } }
}

/// Stops where the versions answer differently from the number expected.
fn expect(number: u64, case: &Case, elements: usize, cells: usize) {
    let (name, row) = (case.name(), case.row(0));
    let (source, old) = (vec![1u32; elements], vec![7u32; cells]);
    let (mut written, mut back) = (old.clone(), source.clone());
    assert_eq!(library_pack(&row, &source, &mut written), number, "{name}");
    assert_eq!(pack(&case.sizes, &case.layout, &source, &mut written), Err(number), "{name}");
    assert_eq!(vectors::pack(&case.sizes, &case.layout, &source, &mut written), Err(number), "{name}");
    assert_eq!(library_unpack(&row, &old, &mut back), number, "{name}");
    assert_eq!(unpack(&case.sizes, &case.layout, &old, &mut back), Err(number), "{name}");
    assert_eq!(vectors::unpack(&case.sizes, &case.layout, &old, &mut back), Err(number), "{name}");
    assert!(written == old && back == source, "{name}: written where refused");
}

pub fn compare() {
    let (m, good) = (1 << 20, case(&[3, 5], &[1, 0], &[&[2, 2]]));
    expect(9, &good, 14, 24);
    expect(9, &good, 15, 23);
    expect(1, &case(&[3, 0], &[1, 0], &[]), 100, 100);
    expect(1, &case(&[m + 1], &[0], &[]), 100, 100);
    expect(1, &case(&[m, m, 2], &[0, 0, 0], &[]), 100, 100);
    expect(3, &case(&[3, 5], &[1, 1], &[]), 100, 100);
    expect(3, &case(&[3, 5], &[1, 2], &[]), 100, 100);
    expect(3, &case(&[3, 5], &[1, 0], &[&[1025]]), 100, 100);
    expect(3, &case(&[3, 5], &[1, 0], &[&[0]]), 100, 100);
    expect(3, &case(&[3, 5], &[1, 0], &[&[2, 2, 2]]), 100, 100);
    expect(3, &case(&[3, 5], &[1, 0], &[&[2], &[]]), 100, 100);
    expect(4, &case(&[m, m], &[1, 0], &[&[3]]), 100, 100);
    expect(4, &case(&[1, 1, 1, 1, 1], &[4, 3, 2, 1, 0], &[&[1024, 1024, 1024, 1024, 2]]), 100, 100);
}
