//! Stand-in: a token that is never cancelled.

pub struct CancelToken;

impl CancelToken {
    pub fn is_cancelled(&self) -> bool {
        false
    }
}
