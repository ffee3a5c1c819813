//! What super_opts.rs and portable.rs name of the analysis. Its own files aren't part of what is ported: its types are as far as a frame's view needs them, and its calls are never made.

pub(crate) struct SuperParams {
    pub(crate) pel: i32,
    pub(crate) gpu: i32,
    pub(crate) levels: i32,
    pub(crate) width: i32,
    pub(crate) height: i32,
}

impl SuperParams {
    pub(crate) fn unpack(_: i64) -> Result<Self, String> {
        unreachable!()
    }
}

pub(crate) struct AnalyseParams;

impl AnalyseParams {
    pub(crate) fn new(_: Option<&crate::params::Value>, _: SuperParams, _: (i32, i32)) -> Result<Self, String> {
        unreachable!()
    }
}

pub(crate) struct RawPlane<'a> {
    pub(crate) data: &'a [u8],
    pub(crate) pitch: usize,
}

pub(crate) struct SuperFrameView<'a> {
    pub(crate) planes: [RawPlane<'a>; 3],
    pub(crate) source: Option<()>,
    pub(crate) width: i32,
    pub(crate) height: i32,
    pub(crate) pel: i32,
    pub(crate) chroma_shift: (u32, u32),
}

pub(crate) fn analysis_header(_: &AnalyseParams) -> [i32; 15] {
    unreachable!()
}

pub(crate) fn analyse(_: &AnalyseParams, _: &SuperFrameView<'_>, _: &SuperFrameView<'_>, _: Option<()>) -> Vec<u32> {
    unreachable!()
}
