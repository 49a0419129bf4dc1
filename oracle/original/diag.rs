//! Stand-in for diag.rs: the diagnostics that combiner.rs names.

#[derive(Clone, Copy, Debug, PartialEq, Eq)]
pub enum ConvertInput {
    K4,
    K5,
}

#[derive(Clone, Copy, Debug, PartialEq, Eq)]
pub enum KeyInput {
    Center,
    Scale,
}

#[derive(Clone, Copy, Debug, PartialEq, Eq)]
pub enum DiagKind {
    NoTextureLoaded,
    UnsupportedChromaKey,
    UnsupportedConvertInput { selector: ConvertInput },
    UnsupportedKeyInput { selector: KeyInput },
    UnsupportedTextureConversion,
    UnwiredSelector { slots: u16 },
}

#[derive(Clone, Copy, Debug, PartialEq, Eq)]
pub struct Diagnostic {
    pub at: u64,
    pub kind: DiagKind,
}
