//! Tests of frames: outside vectors both ways, each kind read and written again, octets that are no frame, and frames of other clusters.
mod tests;
