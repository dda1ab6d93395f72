// Texts for document 02's holes: frames about them.

use crate::text::write;
use crate::vectors::frames::hole_frames;

pub fn texts() -> Vec<Vec<u8>> {
    hole_frames().iter().map(|frame| write(frame).into_bytes()).collect()
}
