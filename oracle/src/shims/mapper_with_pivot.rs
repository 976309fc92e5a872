//! The original mapper once more, with a reader of its pivot. The script call answers the pivot after each step, the
//! field is private to the mapper's module, and the file must stay as it is: so its text is taken into this module.

include!("../../turboani/sliding_mapper.rs");

pub(crate) fn pivot(mapper: &BitsetBottomSketchSlideMapper) -> usize {
    mapper.pivot_idx
}
