//! Where a picture goes: a new file, or standard output. It is whole, or it is not there.

use crate::failure::Failure;
use crate::new_file::NewFile;
use crate::output::Output;

pub enum PictureTarget {
    /// The file is made before the log is read, so that a wrong name is told at once.
    File(NewFile),
    Output,
}

impl PictureTarget {
    /// `-` is standard output.
    pub fn new(name: &str) -> Result<PictureTarget, Failure> {
        match name {
            "-" => Ok(PictureTarget::Output),
            name => NewFile::new("--svg", name).map(PictureTarget::File),
        }
    }

    /// Writes the picture; a file of which only a part could be written is taken away.
    pub fn write(self, picture: &str, output: &mut Output) -> Result<(), Failure> {
        match self {
            PictureTarget::Output => {
                output.pending.extend_from_slice(picture.as_bytes());
                output.flush()
            }
            PictureTarget::File(mut file) => {
                let written = file.write(picture.as_bytes());
                if written.is_err() {
                    file.remove();
                }
                written
            }
        }
    }

    /// Leaves no file where there is no picture.
    pub fn leave_empty(self) {
        if let PictureTarget::File(file) = self {
            file.remove();
        }
    }
}
