//! Editing the file at the front of a buffer, in place.

use crate::{answer, count, raw, Refusal, Summary};

/// What an edit has done.
#[derive(Clone, Copy, Debug, Default, PartialEq, Eq, Hash)]
pub struct Edited {
    /// The file after the edit.
    pub summary: Summary,
    /// How many overflow entries have moved: those of other slots whose number (entries count from
    /// 0) is another one than before.
    pub moved: u64,
}

/// How many numbers an [`EditAnswer`] consists of.
pub const ANSWER_LEN: usize = 10;

/// The answer to one edit of a list, laid out as in the C interface: `refusal` is all zero where the
/// edit was made, `summary` and `moved` where it was refused.
#[repr(C)]
#[derive(Clone, Copy, Debug, Default, PartialEq, Eq, Hash)]
pub struct EditAnswer {
    /// Why the edit was refused.
    pub refusal: Refusal,
    /// The file after the edit.
    pub summary: Summary,
    /// How many overflow entries have moved.
    pub moved: u64,
}

impl EditAnswer {
    /// What the edit has done, or why it was refused.
    pub fn result(&self) -> Result<Edited, Refusal> {
        let EditAnswer {
            refusal,
            summary,
            moved,
        } = *self;
        match refusal.number {
            0 => Ok(Edited { summary, moved }),
            _ => Err(refusal),
        }
    }
}

/// Sets `slot` to `distance` in the file at the front of `buffer`, in place. Answers the new file's
/// summary and how many overflow entries have moved. Refusals 1 to 8, where 5 means that the buffer
/// is shorter than the file, then 9, then 12 where the new file is longer than the buffer. One of
/// [`longest_file`](crate::longest_file) bytes has space for whatever edits make of a file.
///
/// Afterwards the front of the buffer is the file that [`write`](fn@crate::write) makes of the edited
/// list. Where it is shorter than before, the bytes up to the old length are 0; bytes past both
/// lengths stay.
///
/// An edit that takes its slot into or out of overflow, from below 255 to 255 or more or back, moves
/// the overflow entries of all larger slots, at most the [`k`](Summary::k) entries that there were;
/// every other edit moves none.
///
/// ```
/// let mut buffer = *include_bytes!("../../../examples/map-a.pciv");
/// let pciv::Edited { summary, moved } = pciv::edit(&mut buffer, 2, 254)?;
/// assert_eq!((summary.len, summary.sum), (56, 808));
/// assert_eq!(pciv::primary(&buffer[..56]), [0, 254, 254, 255]);
/// assert_eq!(buffer[56..], [0; 12]);
/// // The entry of slot 3, which was the second one, is the first one now.
/// assert_eq!(moved, 1);
/// # Ok::<(), pciv::Refusal>(())
/// ```
pub fn edit(buffer: &mut [u8], slot: u64, distance: u32) -> Result<Edited, Refusal> {
    answer(|Edited { summary, moved }: &mut Edited, refusal| {
        raw::edit(buffer, slot, distance, summary, moved, refusal)
    })
}

/// Makes a list of edits on one buffer, in order: `slots[j]` gets `distances[j]`. The file is checked
/// once. An edit that is refused changes nothing, and those after it are made. Answers how many edits
/// there are; the answer to each goes to the front of `answers`.
///
/// Refusals of the call: 1 to 8 as [`edit`]; 9 where the lists differ in length, with the first
/// position that only one of them has as place; 12 where `answers` is too short.
///
/// ```
/// let mut buffer = include_bytes!("../../../examples/map-a.pciv").to_vec();
/// let mut answers = [pciv::EditAnswer::default(); 3];
/// pciv::edit_list(&mut buffer, &[1, 9, 2], &[7, 7, 254], &mut answers)?;
/// assert_eq!(answers[0].result()?.summary.len, 68);
/// let refusal = answers[1].result().unwrap_err();
/// assert_eq!(refusal.number, pciv::Refusal::SLOT_OUT_OF_RANGE);
/// assert_eq!(answers[2].result()?.summary.k, 1);
/// assert_eq!(answers.map(|answer| answer.summary.sum), [562, 0, 561]);
/// assert_eq!(answers.map(|answer| answer.moved), [0, 0, 1]);
///
/// let mut distances = [0; 4];
/// pciv::scan(&buffer[..56], &mut distances)?;
/// assert_eq!(distances, [0, 7, 254, 300]);
/// # Ok::<(), pciv::Refusal>(())
/// ```
pub fn edit_list(
    buffer: &mut [u8],
    slots: &[u64],
    distances: &[u32],
    answers: &mut [EditAnswer],
) -> Result<usize, Refusal> {
    let answers = raw::answer_numbers(answers);
    count(|count, refusal| raw::edit_list(buffer, slots, distances, answers, count, refusal))
}
