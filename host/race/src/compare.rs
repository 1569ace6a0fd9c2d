//! That the rival answers as ours does, before it is timed.

use crate::rival::RIVAL;
use crate::rows::Row;
use face::call::{Call, Way, Ways};
use face::drawn::Drawing;
use face::guard::Border;
use face::raw::{Rooms, OURS};
use face::show::Difference;

const SEED: u64 = 1;
const AT_THE_END: Way = Way {
    border: Border::End,
    null: false,
};

/// Makes a call by both; gives what they tell, or the call and how they differ.
fn both(rooms: &mut Rooms, call: &Call, ways: Ways) -> Result<u32, String> {
    let ours = rooms.make(&OURS, call, ways);
    let rival = rooms.make(&RIVAL, call, ways);
    if ours.left == rival.left && rival.kept {
        return Ok(ours.left.answer);
    }
    let difference = Difference {
        wanted: &ours.left,
        got: &rival,
    };
    Err(format!(
        "{call}ours is wanted, the rival's is got\n{difference}"
    ))
}

pub fn drawn(rooms: &mut Rooms, count: u64) -> Result<(), String> {
    let mut drawing = Drawing::new(SEED);
    for number in 1..=count {
        let drawn = drawing.draw();
        both(rooms, &drawn.call, drawn.ways)
            .map_err(|text| format!("drawn call {number} of seed {SEED}\n{text}"))?;
    }
    Ok(())
}

/// Each row is answered alike, and with what its name claims.
pub fn rows(rooms: &mut Rooms, rows: &[Row]) -> Result<(), String> {
    for row in rows {
        let Row { name, claimed, .. } = row;
        let told = both(rooms, &row.call, [AT_THE_END; 4])
            .map_err(|text| format!("row '{name}'\n{text}"))?;
        if told != *claimed {
            return Err(format!(
                "row '{name}'\n{}claimed {claimed:#x}, told {told:#x}",
                row.call
            ));
        }
    }
    Ok(())
}
