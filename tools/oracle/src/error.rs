//! Stands in for src/error.rs: the pushes, in order, with their errors and spans. Of the errors
//! only those that the original's files make.

use std::ops::Range;
use std::path::PathBuf;

use crate::driver::SourceMap;
use crate::str::{AliasName, FunctionName, ModuleName};

/// Where an item is: `start` is its mark.
#[derive(Copy, Clone, Debug, Eq, PartialEq, Hash)]
pub struct Span {
    pub file_id: usize,
    pub start: usize,
    pub end: usize,
}

impl Span {
    pub const fn new(file_id: usize, range: Range<usize>) -> Self {
        Self {
            file_id,
            start: range.start,
            end: range.end,
        }
    }
}

pub trait WithSpan<T> {
    fn with_span<S: Into<Span>>(self, span: S) -> Result<T, Diagnostic>;
}

impl<T> WithSpan<T> for Result<T, Error> {
    fn with_span<S: Into<Span>>(self, span: S) -> Result<T, Diagnostic> {
        self.map_err(|error| error.with_span(span.into()))
    }
}

/// An error and where it is; without a span it concerns the whole build.
#[derive(Debug, Clone)]
pub struct Diagnostic {
    pub error: Box<Error>,
    pub span: Option<Span>,
}

impl Diagnostic {
    pub fn new(error: Error, span: Span) -> Self {
        Self {
            error: Box::new(error),
            span: Some(span),
        }
    }

    pub fn global(error: Error) -> Self {
        Self {
            error: Box::new(error),
            span: None,
        }
    }
}

#[derive(Default)]
pub struct DiagnosticManager {
    /// In the order of the pushes.
    pub pushed: Vec<Diagnostic>,
    /// As handed over with `with_sources`.
    pub sources: Option<SourceMap>,
}

impl DiagnosticManager {
    pub fn push(&mut self, diagnostic: Diagnostic) {
        self.pushed.push(diagnostic);
    }

    pub fn has_errors(&self) -> bool {
        !self.pushed.is_empty()
    }

    pub fn error_count(&self) -> usize {
        self.pushed.len()
    }

    pub fn with_sources(&mut self, sources: SourceMap) {
        self.sources = Some(sources);
    }

    /// The order serves the presentation alone.
    pub fn with_source_order(&mut self, _order: &[usize]) {}
}

#[derive(Debug, Clone)]
pub enum Error {
    // src/resolution.rs, the builder
    DependencyPathNotFound { path: PathBuf },
    DependencyNotADirectory { path: PathBuf },
    ReservedDependencyKeyword { keyword: String },
    InvalidDependencyIdentifier { alias: String },
    DuplicateDependencyAlias { alias: String, context: String },
    // src/resolution.rs and src/driver
    CannotParse { msg: String },
    UnknownLibrary { name: String },
    ExternalFileNotFound { lib: String, filename: PathBuf },
    FileNotFound { filename: PathBuf },
    LocalFileImportedAsExternal { path: PathBuf },
    Internal { msg: String },
    LinearizationCycleDetected { deps: Vec<String> },
    MainOutOfEntryFile,
    Grammar { msg: String },
    // src/ast/scope/modules.rs
    MissingCrateKeyword,
    ModuleNotFound { name: ModuleName },
    ModuleIsPrivate { name: ModuleName },
    UnresolvedItem { name: String },
    PrivateItem { name: String },
    RedefinedItem { name: String },
    MainCannotBeAlias,
    ModuleRedefined { name: ModuleName },
    RedefinedAlias { name: AliasName },
    FunctionRedefined { name: FunctionName },
    UndefinedAlias { name: AliasName },
    FunctionUndefined { name: FunctionName },
}

impl Error {
    pub fn with_span(self, span: Span) -> Diagnostic {
        Diagnostic::new(self, span)
    }
}

impl std::fmt::Display for Error {
    fn fmt(&self, f: &mut std::fmt::Formatter<'_>) -> std::fmt::Result {
        write!(f, "{self:?}")
    }
}
