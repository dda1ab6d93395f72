//! The labelling of square grids, proved in Rattle, as safe functions. [`Frame::label`] labels a whole frame; the stages that it is made of
//! are calls too. `docs/GUIDE.md` in the repository tells where a frame's lists come from and what the labels mean.
//!
//! ```
//! use ngeunsadok::{twins_of, Axes, Entry, Frame, Params, Positions};
//!
//! // A square of four corners, each with an axis along either side and no spread, cut into two triangles.
//! let up = std::f32::consts::FRAC_PI_2;
//! let triangles = [0, 1, 2, 0, 2, 3];
//! let frame = Frame {
//!     corners: Positions { x: &[0.0, 10.0, 10.0, 0.0], y: &[0.0, 0.0, 10.0, 10.0] },
//!     axes: Axes { angles: &[0.0, up, 0.0, up, 0.0, up, 0.0, up], marks: &[0; 8], spreads: &[0.0; 8] },
//!     triangles: &triangles,
//!     twins: &twins_of(&triangles),
//! };
//! let labels = frame.label(Params::default())?;
//! assert_eq!(labels.components.len(), 1);
//! assert_eq!(labels.entries_of(&labels.components[0])[2], Entry { u: 1, v: 0, corner: 1 });
//!
//! // A list that does not fit is refused in words.
//! let refusal = Frame { twins: &[], ..frame }.label(Params::default()).unwrap_err();
//! assert_eq!(refusal.number(), 1);
//! assert!(refusal.to_string().starts_with("paired lists differ in length"));
//! # Ok::<(), ngeunsadok::Refusal>(())
//! ```
//!
//! # Missing spreads
//!
//! An axis may come without a spread. By default it counts, as in the original Rust library. Where the corner finder leaves a spread out
//! because its fit gave up, [`SpreadRule::MissingUninformative`] in [`EdgeParams`] makes such an axis count for nothing.
//!
//! # How well a side fits
//!
//! [`classify_all_edges`] writes beside each Grid side's class how far from the axes at its ends it lies: what there is to know before
//! a tighter tolerance is chosen.
//!
//! # Refusals
//!
//! Every call is total: it answers, or it refuses and says why and where ([`Refusal`]). A refusal leaves the lists that are written
//! untouched; success leaves what lies past its answer. The workspace need not be zero before a call. It is zero after success and where a
//! list had too little room for the answer ([`Refusal::Records`], [`Refusal::Entries`]), and untouched by every other refusal.
//!
//! # Floating point
//!
//! The proofs are about IEEE 754 with rounding to nearest and subnormals kept, as every Rust program has it from its start. A call made in a
//! thread with another rounding, or with subnormals flushed to zero, may answer wrong: so it is below a C program that was linked with
//! `-ffast-math`. [`float_settings_hold`] tells.
//!
//! # Threads
//!
//! The archive has no state: calls may run in several threads at once.
//!
//! # Stack
//!
//! No call is recursive or allocates stack by the length of a list. [`label_frame`] takes at most [`STACK`] bytes, [`filter_quads`] and
//! [`label_components`] 24 KiB, the others 8 KiB. A thread of Rust has 2 MiB if not told otherwise.
//!
//! # Linking
//!
//! The lists are laid out as `include/ngeunsadok.h` says. The build makes the archive with `tools/native-archive` for cargo's target, which
//! needs the Rattle kit; where `NGEUNSADOK_ARCHIVE` names an archive, by its full path, that one is linked as it is. In the folder
//! crates/abi `rt lib` writes one to `out/libabi.a`, for x86-64.

mod frame;
mod labels;
mod numbers;
mod raw;
mod refusal;
mod stages;
mod twins;

pub use frame::{frame_work, label_frame, Frame, Labels, Params};
pub use labels::{filter_quads, label_components, quad_work};
pub use labels::{Component, Counts, Entry, FilterParams, LabelParams};
pub use numbers::{angle, axis_cache, axis_distance, float_settings_hold, root, Axis, AxisCache, SpreadRule};
pub use refusal::Refusal;
pub use stages::{classify_all_edges, merge_triangle_pairs, NO_TWIN};
pub use stages::{Axes, EdgeParams, Mesh, Positions, Quad};
pub use twins::twins_of;

/// The most corners of a call.
pub const MOST_CORNERS: usize = 4_096;
/// The most half-edges of a call, that is, elements of its list of triangles.
pub const MOST_HALF_EDGES: usize = 24_576;
/// The most quads of a call.
pub const MOST_QUADS: usize = 4_096;

/// Bytes of stack that any call does with.
pub const STACK: usize = 96 * 1_024;
