//! Files put together anew, so that the directory follows the sections but these are not a run's, or
//! breaks one rule alone.

use super::Source;
use crate::answer::{run, Answer};
use crate::archive::{file_of, layout, sections};
use crate::archive::{FIRST_OFFSET, RECORD_SIZE, SECTIONS, SNAPSHOT_SIZE};

/// What becomes of such a file.
#[derive(Debug, Clone, Copy, PartialEq, Eq)]
pub enum Reshaped {
    /// The check says yes.
    Yes,
    /// It says no.
    No,
    /// The layout is broken.
    Broken,
}

type Sections = [Vec<u8>; SECTIONS];

/// Reshapes a run's sections into a file. `None`: these have too few bytes for it.
type Reshaping = fn(&mut Source, Sections) -> Option<Vec<u8>>;

const RECORDS: usize = 2;
const SNAPSHOTS: usize = 3;

/// Five records have as many bytes as three snapshots.
const MOVED: usize = 120;

#[rustfmt::skip]
const RESHAPINGS: [(&str, Reshaping, Reshaped); 11] = [
    ("the last snapshot taken away", Source::snapshot_fewer, Reshaped::Yes),
    ("a snapshot of zeros put behind", Source::snapshot_more, Reshaped::No),
    ("the last record taken away", Source::record_fewer, Reshaped::No),
    ("a record of zeros put behind", Source::record_more, Reshaped::No),
    ("five records as three snapshots", Source::records_as_snapshots, Reshaped::No),
    ("three snapshots as five records", Source::snapshots_as_records, Reshaped::No),
    ("a section of another length", Source::other_length, Reshaped::Broken),
    ("two pairs of the directory exchanged", Source::pairs_exchanged, Reshaped::Broken),
    ("a gap before a section", Source::gap, Reshaped::Broken),
    ("a section that starts too early", Source::overlap, Reshaped::Broken),
    ("another first byte", Source::other_first_byte, Reshaped::Broken),
];

/// The names of the ways, and what becomes of the files.
pub fn reshapings() -> [(&'static str, Reshaped); RESHAPINGS.len()] {
    RESHAPINGS.map(|(name, _, reshaped)| (name, reshaped))
}

/// Files without end, by each of the ways in turn, whose number comes first.
pub fn reshaped_files(seed: u64) -> impl Iterator<Item = (usize, Vec<u8>)> {
    let mut source = Source::new(seed);
    let ways = (0..RESHAPINGS.len()).cycle();
    ways.map(move |way| (way, source.reshaped_file(way)))
}

impl Source {
    fn reshaped_file(&mut self, way: usize) -> Vec<u8> {
        let (_, reshape, _) = RESHAPINGS[way];
        loop {
            let sections = self.sections_of_run();
            if let Some(file) = reshape(self, sections) {
                return file;
            }
        }
    }

    /// Those of an accepted run.
    fn sections_of_run(&mut self) -> Sections {
        loop {
            let input = self.topology_input();
            let answer = run(&input);
            let room = self.room(&answer);
            if let Answer::Ran(run) = answer {
                let file = run.file(&input, room);
                let directory = layout(&file).expect("of a run");
                return sections(&file, &directory).map(<[u8]>::to_vec);
            }
        }
    }

    fn snapshot_fewer(&mut self, mut sections: Sections) -> Option<Vec<u8>> {
        shorten(&mut sections[SNAPSHOTS], SNAPSHOT_SIZE as usize)?;
        Some(file_of(&sections))
    }

    fn snapshot_more(&mut self, mut sections: Sections) -> Option<Vec<u8>> {
        sections[SNAPSHOTS].extend([0; SNAPSHOT_SIZE as usize]);
        Some(file_of(&sections))
    }

    fn record_fewer(&mut self, mut sections: Sections) -> Option<Vec<u8>> {
        shorten(&mut sections[RECORDS], RECORD_SIZE as usize)?;
        Some(file_of(&sections))
    }

    fn record_more(&mut self, mut sections: Sections) -> Option<Vec<u8>> {
        sections[RECORDS].extend([0; RECORD_SIZE as usize]);
        Some(file_of(&sections))
    }

    /// The bytes of the file stay.
    fn records_as_snapshots(&mut self, mut sections: Sections) -> Option<Vec<u8>> {
        let at = sections[RECORDS].len().checked_sub(MOVED)?;
        let moved = sections[RECORDS].split_off(at);
        sections[SNAPSHOTS].splice(..0, moved);
        Some(file_of(&sections))
    }

    /// Here too.
    fn snapshots_as_records(&mut self, mut sections: Sections) -> Option<Vec<u8>> {
        if sections[SNAPSHOTS].len() < MOVED {
            return None;
        }
        let moved: Vec<u8> = sections[SNAPSHOTS].drain(..MOVED).collect();
        sections[RECORDS].extend(moved);
        Some(file_of(&sections))
    }

    /// By a byte, by a number, or of no length; a record's or a snapshot's bytes for other sections too.
    fn other_length(&mut self, mut sections: Sections) -> Option<Vec<u8>> {
        let section = self.pick(&[0, 1, 2, 3, 4]);
        let bytes = &mut sections[section];
        let whole = bytes.len();
        let other = self.pick(&[0, whole.saturating_sub(1), whole + 1, whole + 8, whole + 24]);
        let also_fits = match section {
            RECORDS => other.is_multiple_of(RECORD_SIZE as usize),
            SNAPSHOTS => other.is_multiple_of(SNAPSHOT_SIZE as usize),
            _ => other == whole,
        };
        bytes.resize(other, 0);
        (!also_fits).then(|| file_of(&sections))
    }

    fn pairs_exchanged(&mut self, sections: Sections) -> Option<Vec<u8>> {
        let mut file = file_of(&sections);
        let first = self.below(4) as usize;
        let pairs = &mut file[1 + 8 * first..][..16];
        pairs.rotate_left(8);
        // Two sections of no length have equal ones.
        (pairs[..8] != pairs[8..]).then_some(file)
    }

    /// A byte that no section has; the offsets from there on, or just this one, name it.
    fn gap(&mut self, sections: Sections) -> Option<Vec<u8>> {
        let mut file = file_of(&sections);
        let section = self.below(5) as usize;
        let last = self.pick(&[section, 4]);
        file.insert(offset(&file, section), 0);
        for section in section..=last {
            let moved = offset(&file, section) + 1;
            set_offset(&mut file, section, moved);
        }
        Some(file)
    }

    fn overlap(&mut self, sections: Sections) -> Option<Vec<u8>> {
        let mut file = file_of(&sections);
        let section = self.below(5) as usize;
        let start = offset(&file, section);
        let early = self.pick(&[start - 1, start - 8, FIRST_OFFSET - 1, 0]);
        set_offset(&mut file, section, early);
        Some(file)
    }

    fn other_first_byte(&mut self, sections: Sections) -> Option<Vec<u8>> {
        let mut file = file_of(&sections);
        let any = 6 + self.below(250) as u8;
        file[0] = self.pick(&[0, 1, 4, 6, u8::MAX, any]);
        Some(file)
    }
}

/// By so many bytes, if it has them.
fn shorten(section: &mut Vec<u8>, by: usize) -> Option<()> {
    let left = section.len().checked_sub(by)?;
    section.truncate(left);
    Some(())
}

/// What the directory says of a section's start.
fn offset(file: &[u8], section: usize) -> usize {
    let bytes = file[1 + 8 * section..][..4].try_into().expect("four");
    u32::from_le_bytes(bytes) as usize
}

fn set_offset(file: &mut [u8], section: usize, offset: usize) {
    file[1 + 8 * section..][..4].copy_from_slice(&(offset as u32).to_le_bytes());
}
