//! What `ask`, `explain` and `draw` are asked: a question of a folder's catalogue, in a running order.

use crate::failure::Failure;
use crate::folder::Folder;
use crate::question::Question;
use crate::words::Asked;

pub struct Request {
    pub folder: Folder,
    pub question: Question,
    pub order: Vec<u8>,
}

impl Request {
    /// Opens the folder and reads the question. Without an order the conditions run as they stand.
    pub fn read(asked: &Asked) -> Result<Request, Failure> {
        let folder = Folder::open(&asked.folder)?;
        let question = Question::read(&folder, &asked.question)?;
        let standing = || (0..=u8::MAX).take(question.conditions().len()).collect();
        let order = asked.order.clone().unwrap_or_else(standing);
        Ok(Request { folder, question, order })
    }
}
