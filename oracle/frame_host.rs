//! portable.rs as it stands beside this file, and below it doors to its private items; nothing above them is changed.
include!("portable.rs");

/// Its planes are built on threads of their own; which of them is built first makes no difference, since each has its own bytes.
mod svpflow_core {
    pub(super) mod threads {
        pub(crate) fn join(one: impl FnOnce(), other: impl FnOnce()) {
            one();
            other();
        }
    }
}

/// The builder of a record's settings, given as the text that a site would write; none where the Rust takes no such record.
pub(crate) fn builder(r: &SuperOpts) -> Option<SuperBuilder> {
    let text = format!("{{pel:{},gpu:{},scale:{{down:{},up:{}}},full:{},rc:{},lean:{}}}", r.pel, r.gpu, r.scale_down, r.scale_up, r.full, r.rc, r.lean);
    SuperBuilder::with_options(r.width, r.height, &text).ok()
}

pub(crate) fn record(builder: &SuperBuilder) -> SuperOpts {
    builder.opts
}

/// The pitch of each plane.
pub(crate) fn pitches(frame: &SuperFrame) -> [usize; 3] {
    frame.view().planes.map(|p| p.pitch)
}
