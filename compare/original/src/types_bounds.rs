// Stand-in.

#[derive(Clone, Copy, Debug, Default)]
pub struct Box;

#[derive(Clone, Copy, Debug, Default)]
pub struct Rect;
