//! Requests about trees: SHAPE LIMIT MOVES and the stations, each a PARENT and its layouts, with `;` between them.
//!
//! How a line is read where the form alone leaves a choice:
//! - Every PARENT is read as every unsigned number, the first station's too: a negative one is handed on as 2^64 - 1,
//!   one outside 64 signed bits is unreadable. Which number the first one is alters nothing.
//! - A station without its number is unreadable at its first layout, one without layouts at the token behind its number.
//! - A number behind a layout is unreadable: a `;` must stand before the next station.

use crate::reader::{Reader, Unreadable};
use crate::request::layouts;
use crate::route::Route;
use crate::tree::Tree;

/// Reads what stands behind the word.
pub fn read_tree(reader: &mut Reader) -> Result<Tree, Unreadable> {
    let shape = reader.shape()?;
    let cell_limit = reader.unsigned()?;
    let move_limit = reader.unsigned()?;
    let mut parents = vec![reader.unsigned()?];
    let mut stations = vec![layouts(reader)?];
    while reader.skip(b';') {
        parents.push(reader.unsigned()?);
        stations.push(layouts(reader)?);
    }
    let route = Route {
        shape,
        cell_limit,
        move_limit,
        stations,
    };
    Ok(Tree { route, parents })
}
