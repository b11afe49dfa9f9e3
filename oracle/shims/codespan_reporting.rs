//! Stands for the crate codespan_reporting: the types that ast.rs and analyzer.rs name.
//! Diagnostics are only counted (`Scope::new` fails when there is one), so they hold nothing.

pub mod diagnostic {
    use std::marker::PhantomData;
    use std::ops::Range;

    #[derive(Debug)]
    pub struct Diagnostic<FileId>(PhantomData<FileId>);

    impl<FileId> Diagnostic<FileId> {
        pub fn error() -> Self {
            Diagnostic(PhantomData)
        }
        pub fn with_code(self, _code: impl Into<String>) -> Self {
            self
        }
        pub fn with_message(self, _message: impl Into<String>) -> Self {
            self
        }
        pub fn with_labels(self, _labels: Vec<Label<FileId>>) -> Self {
            self
        }
        pub fn with_notes(self, _notes: Vec<String>) -> Self {
            self
        }
    }

    #[derive(Debug)]
    pub struct Label<FileId>(PhantomData<FileId>);

    impl<FileId> Label<FileId> {
        pub fn primary(_file: FileId, _range: Range<usize>) -> Self {
            Label(PhantomData)
        }
        pub fn secondary(_file: FileId, _range: Range<usize>) -> Self {
            Label(PhantomData)
        }
        pub fn with_message(self, _message: impl Into<String>) -> Self {
            self
        }
    }
}

pub mod files {
    use std::marker::PhantomData;

    #[derive(Debug)]
    pub struct Error;

    pub struct SimpleFiles<Name, Source>(PhantomData<(Name, Source)>);
    pub struct SimpleFile<Name>(Name);

    impl<Name, Source> SimpleFiles<Name, Source> {
        pub fn get(&self, _id: usize) -> Result<&SimpleFile<Name>, Error> {
            Err(Error)
        }
    }

    impl<Name> SimpleFile<Name> {
        pub fn name(&self) -> &Name {
            &self.0
        }
    }
}

pub mod term {
    use crate::{diagnostic::Diagnostic, files};

    #[derive(Default)]
    pub struct Config;

    pub mod termcolor {
        pub trait WriteColor {}
    }

    pub fn emit_to_write_style<Sources, FileId>(
        _writer: &mut dyn termcolor::WriteColor,
        _config: &Config,
        _sources: &Sources,
        _diagnostic: &Diagnostic<FileId>,
    ) -> Result<(), files::Error> {
        Ok(())
    }
}
