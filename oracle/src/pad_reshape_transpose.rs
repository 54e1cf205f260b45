//! Document 001's second reading of tiling: pad, reshape and transpose an array that holds element numbers.

/// An array in row-major order; none stands for padding.
struct Array {
    bounds: Vec<u64>,
    held: Vec<Option<u64>>,
}

/// The element number in each cell of the tiled memory.
pub fn memory(sizes: &[u64], minor_to_major: &[u64], tiles: &[Vec<u64>]) -> Vec<Option<u64>> {
    let mut array = untiled(sizes, minor_to_major);
    for tile in tiles {
        let majors = array.bounds.len() - tile.len();
        let padded = pad(&array, tile);
        let split = reshape(padded, tile);
        // (.., c, t, c, t) becomes (.., c, c, t, t).
        let tiled = majors..majors + 2 * tile.len();
        let mut axes: Vec<usize> = (0..majors).collect();
        axes.extend(tiled.clone().step_by(2));
        axes.extend(tiled.skip(1).step_by(2));
        array = transpose(&split, &axes);
    }
    array.held
}

/// The untiled array: the first dimension of minor_to_major moves fastest.
fn untiled(sizes: &[u64], minor_to_major: &[u64]) -> Array {
    let count: u64 = sizes.iter().product();
    let mut held = vec![None; count as usize];
    let mut point = vec![0; sizes.len()];
    for element in 0..count {
        let mut place = 0;
        let mut stride = 1;
        for &dimension in minor_to_major {
            place += point[dimension as usize] * stride;
            stride *= sizes[dimension as usize];
        }
        held[place as usize] = Some(element);
        step(&mut point, sizes);
    }
    let order = minor_to_major.iter().rev();
    let bounds = order.map(|dimension| sizes[*dimension as usize]).collect();
    Array { bounds, held }
}

/// Step 1: every tiled dimension is padded up to a multiple of its tile entry.
fn pad(array: &Array, tile: &[u64]) -> Array {
    let majors = array.bounds.len() - tile.len();
    let mut bounds = array.bounds.clone();
    for (k, &t) in tile.iter().enumerate() {
        let bound = &mut bounds[majors + k];
        while *bound / t * t < *bound {
            *bound += 1;
        }
    }
    let count: u64 = bounds.iter().product();
    let mut held = Vec::new();
    let mut source = array.held.iter();
    let mut point = vec![0; bounds.len()];
    for _ in 0..count {
        let inside = point.iter().zip(&array.bounds).all(|(e, d)| e < d);
        // Points inside come in the row-major order of the array itself.
        held.push(if inside {
            source.next().copied().flatten()
        } else {
            None
        });
        step(&mut point, &bounds);
    }
    Array { bounds, held }
}

/// Step 2: every tiled dimension d becomes (d / t, t); nothing moves.
fn reshape(array: Array, tile: &[u64]) -> Array {
    let majors = array.bounds.len() - tile.len();
    let mut bounds = array.bounds[..majors].to_vec();
    for (d, t) in array.bounds[majors..].iter().zip(tile) {
        bounds.extend([d / t, *t]);
    }
    Array { bounds, ..array }
}

/// Step 3: the dimensions in a new order; dimension k of the result is dimension axes[k] of the array.
fn transpose(array: &Array, axes: &[usize]) -> Array {
    let bounds: Vec<u64> = axes.iter().map(|axis| array.bounds[*axis]).collect();
    let strides: Vec<u64> = axes
        .iter()
        .map(|axis| array.bounds[axis + 1..].iter().product())
        .collect();
    let mut held = Vec::new();
    let mut point = vec![0; bounds.len()];
    for _ in 0..array.held.len() {
        let place: u64 = point
            .iter()
            .zip(&strides)
            .map(|(e, stride)| e * stride)
            .sum();
        held.push(array.held[place as usize]);
        step(&mut point, &bounds);
    }
    Array { bounds, held }
}

/// Moves a point on by one in row-major order; behind the last one stands the first.
fn step(point: &mut [u64], bounds: &[u64]) {
    for k in (0..point.len()).rev() {
        point[k] += 1;
        if point[k] < bounds[k] {
            return;
        }
        point[k] = 0;
    }
}
