//! Recordings written record by record, each by a call of its own. The cost of a record must not
//! grow with the recording.

use super::replays::{recording, Runs, GROUPS};
use crate::buffers::Buffers;
use crate::plain::writing::write;
use crate::timing::{measure, Column, Line, Way};
use ofersky::Record;

pub fn all(show: &mut dyn FnMut(Line)) {
    for (groups, runs) in GROUPS {
        let (bytes, _) = recording(groups, runs);
        show(written(&bytes, &records(&bytes), runs));
    }
}

fn records(recording: &[u8]) -> Vec<Record> {
    let mut records = Vec::new();
    let mut place = 0;
    while place < recording.len() {
        let reading = ofersky::read_record(recording, place);
        assert_eq!(reading.number, 0);
        records.push(reading.item);
        place = reading.place;
    }
    records
}

fn written(recording: &[u8], records: &[Record], runs: Runs) -> Line {
    let ours = |b: &mut Buffers| {
        let mut place = 0;
        for item in records {
            place = ofersky::write_record(*item, &mut b.out, place).value as usize;
        }
        place
    };
    let plain = |b: &mut Buffers| {
        let mut place = 0;
        for item in records {
            place = write(item.kind, item.address, item.value, &mut b.out, place);
        }
        place
    };
    let copy = |b: &mut Buffers| b.out.copy_from_slice(recording);
    let ways = vec![
        Way::compared(Column::Ours, ours),
        Way::compared(Column::Plain, plain),
        Way::timed(Column::Copy, copy),
    ];
    let name = format!("writing of {} bytes{}", recording.len(), runs.name());
    let mut buffers = Buffers::new(0, recording.len());
    measure(name, records.len(), &mut buffers, ways)
}
