//! The answer of a re-tiling: what each run settled, the last mark, and the destination's cells.

use crate::answer::row;
use crate::layout::padded_size;
use crate::refusal::Refusal;
use crate::request_retile::RetileRequest;
use crate::retile::{retile, Memory, Retiling};

/// What the destination's cells hold before the first run.
const HELD: u32 = 9999;

/// Makes the runs in turn on the same two buffers; the first refusal ends them.
pub fn retile_answer(request: &RetileRequest) -> Result<String, Refusal> {
    // The source's cells hold their own offsets plus 1.
    let source: Vec<u32> = (1..=request.source as u32).collect();
    let retiling = Retiling {
        shape: &request.shape,
        source_layout: &request.source_layout,
        destination_layout: &request.destination_layout,
        source: &source,
    };
    let mut memory = Memory {
        destination: vec![HELD; request.destination as usize],
        mark: 0,
    };
    let mut line = "settled".to_string();
    for run in &request.runs {
        memory.mark = run.mark;
        let settled = retile(&retiling, &mut memory, run.allowance)?;
        line.push_str(&format!(" {settled}"));
    }
    let padded = padded_size(&request.shape, &request.destination_layout)?;
    let cells = row("cells", &memory.destination[..padded as usize]);
    Ok(format!("{line} mark {} {cells}", memory.mark))
}
