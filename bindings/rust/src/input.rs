//! What the jobs are done for. The two forms are types of their own: a text that is taken for a sheet
//! would be refused like any wrong sheet, and nothing would tell why.

/// The bytes of a planning sheet.
#[derive(Clone, Copy, Debug, PartialEq, Eq)]
pub struct Sheet<'a>(pub &'a [u8]);

/// The bytes of a typed text.
#[derive(Clone, Copy, Debug, PartialEq, Eq)]
pub struct Text<'a>(pub &'a [u8]);

/// What the jobs are done for: a planning sheet, or a typed text that stands for one. [`Sheet`] and
/// [`Text`] convert into it. Bytes alone do not, as they do not tell what they are:
///
/// ```compile_fail,E0277
/// comzsered::listing(b"switches 1\nfaults 0\n");
/// ```
#[derive(Clone, Copy, Debug, PartialEq, Eq)]
pub enum Input<'a> {
    Sheet(&'a [u8]),
    Text(&'a [u8]),
}

impl<'a> From<Sheet<'a>> for Input<'a> {
    fn from(sheet: Sheet<'a>) -> Input<'a> {
        Input::Sheet(sheet.0)
    }
}

impl<'a> From<Text<'a>> for Input<'a> {
    fn from(text: Text<'a>) -> Input<'a> {
        Input::Text(text.0)
    }
}
