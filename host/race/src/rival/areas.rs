//! The list of areas: three words for each, first, count and access.

const MOST_AREAS: usize = 16;
const AREA_WORDS: usize = 3;
const READ_WRITE: u16 = 1;

/// A run of words; `end` is one past the last.
#[derive(Clone, Copy)]
pub struct Run {
    pub first: usize,
    pub end: usize,
}

/// What a list that keeps the rules says of a run.
#[derive(Clone, Copy, PartialEq, Eq)]
pub enum Finding {
    SomeInNoArea,
    SomeReadOnly,
    AllReadWrite,
}

/// None if the list breaks a rule.
pub fn survey(areas: &[u16], image_words: usize, run: Run) -> Option<Finding> {
    let areas = areas.chunks_exact(AREA_WORDS);
    if areas.len() > MOST_AREAS || !areas.remainder().is_empty() {
        return None;
    }
    let mut free = 0;
    let mut missing = run.first;
    let mut writable = true;
    for area in areas {
        let (first, count, access) = (usize::from(area[0]), usize::from(area[1]), area[2]);
        let end = first + count;
        if count == 0 || first < free || end > image_words || access > READ_WRITE {
            return None;
        }
        free = end;
        // Areas ascend: the first word of the run that is still missing lies in this one or in none before.
        if missing < run.end && first <= missing && missing < end {
            writable &= access == READ_WRITE;
            missing = end;
        }
    }
    Some(if missing < run.end {
        Finding::SomeInNoArea
    } else if writable {
        Finding::AllReadWrite
    } else {
        Finding::SomeReadOnly
    })
}
