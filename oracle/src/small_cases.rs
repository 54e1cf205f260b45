//! Small cases for brute force: shapes, orders of dimensions and tile lists.

use crate::shape::Shape;

/// Every shape of rank 0 to 3 with small sizes.
pub fn shapes() -> Vec<Shape> {
    let mut shapes = vec![Shape { sizes: vec![] }];
    for (rank, largest) in [(1, 9), (2, 5), (3, 4)] {
        let sizes: Vec<u64> = (1..=largest).collect();
        shapes.extend(
            tuples(&sizes, rank)
                .into_iter()
                .map(|sizes| Shape { sizes }),
        );
    }
    shapes
}

/// Every order of the dimensions.
pub fn permutations(rank: usize) -> Vec<Vec<u64>> {
    let dimensions: Vec<u64> = (0..rank as u64).collect();
    let mut orders = tuples(&dimensions, rank);
    orders.retain(|order| dimensions.iter().all(|d| order.contains(d)));
    orders
}

/// No tile, every small tile, and lists of two and three of some tiles.
pub fn tile_lists() -> Vec<Vec<Vec<u64>>> {
    let mut lists = vec![vec![]];
    for length in 1..=3 {
        lists.extend(
            tuples(&[1, 2, 3], length)
                .into_iter()
                .map(|tile| vec![tile]),
        );
    }
    lists.extend([vec![vec![4]], vec![vec![5]], vec![vec![4, 5]]]);
    let some: [&[u64]; 9] = [
        &[1],
        &[2],
        &[3],
        &[1, 2],
        &[2, 1],
        &[2, 2],
        &[3, 2],
        &[2, 1, 3],
        &[1, 2, 1, 2],
    ];
    lists.extend(lists_of(&some, 2));
    let fewer: [&[u64]; 4] = [&[2], &[3, 2], &[2, 1], &[2, 2, 1]];
    lists.extend(lists_of(&fewer, 3));
    lists
}

/// Every list of that many tiles.
fn lists_of(tiles: &[&[u64]], count: usize) -> Vec<Vec<Vec<u64>>> {
    let places: Vec<u64> = (0..tiles.len() as u64).collect();
    let tile = |place: &u64| tiles[*place as usize].to_vec();
    let list = |places: &Vec<u64>| places.iter().map(tile).collect();
    tuples(&places, count).iter().map(list).collect()
}

/// Every list of that length with entries from the choices.
pub fn tuples(choices: &[u64], length: usize) -> Vec<Vec<u64>> {
    let mut lists = vec![vec![]];
    for _ in 0..length {
        let mut longer = Vec::new();
        for list in &lists {
            for &choice in choices {
                let mut extended: Vec<u64> = list.clone();
                extended.push(choice);
                longer.push(extended);
            }
        }
        lists = longer;
    }
    lists
}
