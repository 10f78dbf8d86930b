//! The options of a file that is saved: its kind, its start, and its other bytes.
use crate::tool::command_line::arguments::Arguments;
use crate::tool::command_line::values::{self, NameArgument};
use crate::tool::failure::{Failure, Reason};
use varnucht::{CarriedKind, NO_EXECUTION, Particulars, Start};

/// What the options say of a file that is saved or recorded. Whether the library takes that is not asked yet.
pub struct FileOptions {
    kind: u32,
    page: u32,
    offset: u32,
    execution: [u8; 3],
    information: [u8; 11],
}

impl FileOptions {
    /// As the command line has it.
    pub fn read(arguments: &Arguments) -> Result<FileOptions, Failure> {
        let kind = arguments
            .value("--kind")
            .map_or(Ok(CarriedKind::Code.number().into()), |word| values::kind(arguments, word))?;
        Ok(FileOptions {
            kind,
            page: values::number_or(arguments, "--page", 1)?,
            offset: values::number_or(arguments, "--offset", 32_768)?,
            execution: values::bytes_or(arguments, "--exec", NO_EXECUTION)?,
            information: values::bytes_or(arguments, "--info", [0; 11])?,
        })
    }

    /// The file of this name, or why it cannot be one, in the order of the refusals: 12, 13, 14.
    pub fn file(&self, name: &NameArgument) -> Result<Particulars, Reason> {
        let (name, kind) = (name.new_name("it")?, CarriedKind::from_number(self.kind)?);
        let file = Particulars::new(kind, name, Start::new(self.page, self.offset)?);
        Ok(Particulars {
            execution: self.execution,
            information: self.information,
            ..file
        })
    }
}
