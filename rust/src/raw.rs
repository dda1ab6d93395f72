// The archive's calls as C declares them (include/ngeunsadok.h): each list a pointer, then the number of its elements.
// A test holds these declarations, those of the header and those of crates/abi/src/lib.rt against each other.

#[repr(C)]
pub struct Number {
    pub refused: u32,
    pub place: u32,
    pub value: f32,
}

#[repr(C)]
pub struct Apart {
    pub known: u32,
    pub value: f32,
}

#[repr(C)]
pub struct Cache {
    pub refused: u32,
    pub place: u32,
    pub angle0: f32,
    pub informative0: u32,
    pub angle1: f32,
    pub informative1: u32,
}

#[repr(C)]
pub struct Verdict {
    pub refused: u32,
    pub place: u32,
}

#[repr(C)]
pub struct Count {
    pub refused: u32,
    pub place: u32,
    pub beside: u32,
    pub count: u32,
}

#[repr(C)]
pub struct Counts {
    pub refused: u32,
    pub place: u32,
    pub beside: u32,
    pub components: u32,
    pub entries: u32,
}

extern "C" {
    pub fn ngeunsadok_root(x: f32) -> Number;
    pub fn ngeunsadok_angle(dx: f32, dy: f32) -> Number;
    pub fn ngeunsadok_distance(angle: f32, axis: f32) -> Apart;
    pub fn ngeunsadok_axis_cache(
        angle0: f32,
        marked0: u32,
        spread0: f32,
        angle1: f32,
        marked1: u32,
        spread1: f32,
        limit: f32,
        rule: u32,
    ) -> Cache;
    pub fn ngeunsadok_label_frame(
        x: *const f32,
        x_count: usize,
        y: *const f32,
        y_count: usize,
        angles: *const f32,
        angle_count: usize,
        marks: *const u32,
        mark_count: usize,
        spreads: *const f32,
        spread_count: usize,
        triangles: *const u32,
        triangle_words: usize,
        twins: *const u32,
        twin_count: usize,
        tolerance: f32,
        ratio: f32,
        least: f32,
        greatest: f32,
        limit: f32,
        least_quads: u32,
        least_corners: u32,
        rule: u32,
        work: *mut u32,
        work_words: usize,
        components: *mut u32,
        component_words: usize,
        entries: *mut u32,
        entry_words: usize,
    ) -> Counts;
    pub fn ngeunsadok_classify_all_edges(
        x: *const f32,
        x_count: usize,
        y: *const f32,
        y_count: usize,
        angles: *const f32,
        angle_count: usize,
        marks: *const u32,
        mark_count: usize,
        spreads: *const f32,
        spread_count: usize,
        triangles: *const u32,
        triangle_words: usize,
        tolerance: f32,
        limit: f32,
        rule: u32,
        classes: *mut u32,
        class_count: usize,
        fits: *mut f32,
        fit_count: usize,
    ) -> Verdict;
    pub fn ngeunsadok_merge_triangle_pairs(
        x: *const f32,
        x_count: usize,
        y: *const f32,
        y_count: usize,
        triangles: *const u32,
        triangle_words: usize,
        twins: *const u32,
        twin_count: usize,
        classes: *const u32,
        class_count: usize,
        quads: *mut u32,
        quad_words: usize,
    ) -> Count;
    pub fn ngeunsadok_filter_quads(
        x: *const f32,
        x_count: usize,
        y: *const f32,
        y_count: usize,
        quads: *const u32,
        quad_words: usize,
        ratio: f32,
        least: f32,
        greatest: f32,
        work: *mut u32,
        work_words: usize,
        kept: *mut u32,
        kept_words: usize,
    ) -> Count;
    pub fn ngeunsadok_label_components(
        quads: *const u32,
        quad_words: usize,
        corners: u32,
        least_quads: u32,
        least_corners: u32,
        work: *mut u32,
        work_words: usize,
        components: *mut u32,
        component_words: usize,
        entries: *mut u32,
        entry_words: usize,
    ) -> Counts;
}
