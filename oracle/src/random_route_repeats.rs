//! Repeated layouts of random routes: one or several in a station, in one station or in several.

use crate::random::Random;
use crate::random_pieces::Draft;
use crate::random_routes::RouteDraft;
use crate::route::MAX_CHOICES;

/// Puts layouts to one more place of their stations.
pub fn repeat_layouts(random: &mut Random, draft: &mut RouteDraft) {
    for _ in 0..random.pick(&[1, 1, 1, 2, 3]) {
        let station = random.pick_place(draft.stations.len());
        for _ in 0..random.pick(&[1, 1, 1, 2, 3]) {
            repeat_layout(random, &mut draft.stations[station]);
        }
    }
}

/// Puts a layout between the others, or in the place of another one.
fn repeat_layout(random: &mut Random, station: &mut Vec<Draft>) {
    let count = station.len();
    let place = random.pick_place(count);
    let layout = station[place].clone();
    if count == 1 || (count < MAX_CHOICES && random.percent(70)) {
        station.insert(random.pick_place(count + 1), layout);
    } else {
        let other = (place + 1 + random.pick_place(count - 1)) % count;
        station[other] = layout;
    }
}
