//! GraphQL validation, proved.
//!
//! ```
//! let mut schema = vorxindak::Schema::open("type Query { greeting(name: String!): String }")?;
//! for error in schema.validate("{ greeting(nam: 1) }")? {
//!     println!("{error}");
//! }
//! # Ok::<(), vorxindak::OpenError>(())
//! ```
use std::ffi::c_void;
use std::fmt;
use std::ptr;

mod report;

use report::read_report;

const VALID: u32 = 0;
const TOO_SMALL: u32 = 8;
const OUT_OF_MEMORY: u32 = 10;
const NO_INTROSPECTION: u32 = 1;
const JUNIPER: u32 = 2;

#[repr(C)]
struct Slot {
    is_open: bool,
    at: *mut c_void,
}

#[repr(C)]
struct Raw {
    is_open: bool,
    slot: Slot,
}

extern "C" {
    fn vorxindak_version() -> u32;
    fn vorxindak_open(handle: *mut Raw, texts: *const u8, length: usize, flags: u32) -> u32;
    fn vorxindak_validate(
        handle: *mut Raw,
        query: *const u8,
        length: usize,
        max_errors: usize,
        flags: u32,
    ) -> u32;
    fn vorxindak_validate_variables(
        handle: *mut Raw,
        query: *const u8,
        length: usize,
        values: *const u8,
        values_length: usize,
        max_errors: usize,
        flags: u32,
    ) -> u32;
    fn vorxindak_report(handle: *mut Raw, out: *mut u8, room: usize, needed: *mut usize) -> u32;
    fn vorxindak_share(handle: *mut Raw, other: *mut Raw) -> u32;
    fn vorxindak_close(handle: *mut Raw);
}

/// A place of a text. Line and column count from 1, the column in characters.
#[derive(Clone, Copy, Debug, PartialEq, Eq, Hash)]
pub struct Location {
    pub line: usize,
    pub column: usize,
}

/// What is wrong, and where.
#[derive(Clone, Debug, PartialEq, Eq, Hash)]
pub struct Error {
    pub message: String,
    pub locations: Vec<Location>,
    /// The number of the text for faults of a schema, counted from 0.
    pub path: Option<String>,
}

impl fmt::Display for Error {
    fn fmt(&self, f: &mut fmt::Formatter<'_>) -> fmt::Result {
        if let Some(at) = self.locations.first() {
            write!(f, "{}:{}: ", at.line, at.column)?;
        }
        f.write_str(&self.message)
    }
}

/// Why texts are no schema, or why nothing is known.
#[derive(Clone, Debug, PartialEq, Eq)]
pub enum OpenError {
    /// The faults of the texts.
    Faults(Vec<Error>),
    OutOfMemory,
}

impl From<OutOfMemory> for OpenError {
    fn from(_: OutOfMemory) -> Self {
        OpenError::OutOfMemory
    }
}

impl fmt::Display for OpenError {
    fn fmt(&self, f: &mut fmt::Formatter<'_>) -> fmt::Result {
        match self {
            OpenError::Faults(faults) => {
                for fault in faults {
                    writeln!(f, "{fault}")?;
                }
                Ok(())
            }
            OpenError::OutOfMemory => f.write_str("out of memory"),
        }
    }
}

impl std::error::Error for OpenError {}

/// The library ran out of memory, and nothing is known of the document.
#[derive(Clone, Copy, Debug, PartialEq, Eq)]
pub struct OutOfMemory;

impl fmt::Display for OutOfMemory {
    fn fmt(&self, f: &mut fmt::Formatter<'_>) -> fmt::Result {
        f.write_str("out of memory")
    }
}

impl std::error::Error for OutOfMemory {}

/// By which rules documents are judged.
#[derive(Clone, Copy, Debug, Default, PartialEq, Eq)]
pub enum Dialect {
    /// Those of the specification of October 2021.
    #[default]
    October2021,
    /// Those of juniper.
    Juniper,
}

impl Dialect {
    fn flags(self) -> u32 {
        match self {
            Dialect::October2021 => 0,
            Dialect::Juniper => JUNIPER,
        }
    }
}

/// What documents may ask for.
#[derive(Clone, Copy, Debug, PartialEq, Eq)]
pub struct Options {
    /// Whether fields `__schema` and `__type` are allowed.
    pub introspection: bool,
    /// How many errors of a document are reported at most, or 0 for all. One with a long message counts as several:
    /// one, and one more for each 4,096 bytes of its message.
    pub max_errors: usize,
}

/// Introspection is allowed, and at most 1,000 errors are reported.
impl Default for Options {
    fn default() -> Self {
        Options {
            introspection: true,
            max_errors: 1000,
        }
    }
}

impl Options {
    fn flags(self) -> u32 {
        if self.introspection {
            0
        } else {
            NO_INTROSPECTION
        }
    }
}

/// A schema. Each thread has one of its own, by [`Schema::share`]; the schema is in memory once.
pub struct Schema(Raw);

// SAFETY: the library proves that a handle may go to another thread.
unsafe impl Send for Schema {}

// SAFETY: each method that calls the library takes `&mut self`, so a shared reference reaches nothing.
unsafe impl Sync for Schema {}

impl Schema {
    /// Reads a schema: type definitions or the JSON result of an introspection query.
    ///
    /// # Errors
    ///
    /// The text is no schema, or out of memory.
    pub fn open(text: impl AsRef<[u8]>) -> Result<Schema, OpenError> {
        Schema::open_all(&[text], Dialect::default())
    }

    /// Reads a schema of several texts, whose documents are judged by the rules of a dialect.
    ///
    /// # Errors
    ///
    /// The texts are no schema, or out of memory.
    pub fn open_all<T: AsRef<[u8]>>(texts: &[T], dialect: Dialect) -> Result<Schema, OpenError> {
        let parts: Vec<&[u8]> = texts.iter().map(AsRef::as_ref).collect();
        let joined = parts.join(&0);
        let mut schema = Schema::closed();
        let flags = dialect.flags();
        // SAFETY: the handle is closed and no other call uses it; pointer and length are of one slice.
        match unsafe { vorxindak_open(&mut schema.0, joined.as_ptr(), joined.len(), flags) } {
            VALID => Ok(schema),
            OUT_OF_MEMORY => Err(OpenError::OutOfMemory),
            _ => Err(OpenError::Faults(schema.report())),
        }
    }

    /// The errors of a document, in ascending order; none if and only if it is valid. A text that is not a document has
    /// its syntax error.
    ///
    /// # Errors
    ///
    /// Out of memory.
    pub fn validate(&mut self, query: impl AsRef<[u8]>) -> Result<Vec<Error>, OutOfMemory> {
        self.validate_with(query, Options::default())
    }

    /// The same, with options.
    ///
    /// # Errors
    ///
    /// Out of memory.
    pub fn validate_with(
        &mut self,
        query: impl AsRef<[u8]>,
        options: Options,
    ) -> Result<Vec<Error>, OutOfMemory> {
        let query = query.as_ref();
        // SAFETY: `&mut self` says that no other call uses the handle; pointer and length are of one slice.
        let status = unsafe {
            vorxindak_validate(
                &mut self.0,
                query.as_ptr(),
                query.len(),
                options.max_errors,
                options.flags(),
            )
        };
        self.errors(status)
    }

    /// The errors of a document, or if it has none those of the values of its variables, which are a JSON object.
    ///
    /// # Errors
    ///
    /// Out of memory.
    pub fn validate_variables(
        &mut self,
        query: impl AsRef<[u8]>,
        values: impl AsRef<[u8]>,
        options: Options,
    ) -> Result<Vec<Error>, OutOfMemory> {
        let (query, values) = (query.as_ref(), values.as_ref());
        // SAFETY: as above.
        let status = unsafe {
            vorxindak_validate_variables(
                &mut self.0,
                query.as_ptr(),
                query.len(),
                values.as_ptr(),
                values.len(),
                options.max_errors,
                options.flags(),
            )
        };
        self.errors(status)
    }

    /// One more of the same schema, for another thread.
    ///
    /// # Errors
    ///
    /// Out of memory.
    pub fn share(&mut self) -> Result<Schema, OutOfMemory> {
        let mut other = Schema::closed();
        // SAFETY: no other call uses the handles, which are apart.
        match unsafe { vorxindak_share(&mut self.0, &mut other.0) } {
            VALID => Ok(other),
            _ => Err(OutOfMemory),
        }
    }

    fn closed() -> Schema {
        Schema(Raw {
            is_open: false,
            slot: Slot {
                is_open: false,
                at: ptr::null_mut(),
            },
        })
    }

    fn errors(&mut self, status: u32) -> Result<Vec<Error>, OutOfMemory> {
        match status {
            VALID => Ok(Vec::new()),
            OUT_OF_MEMORY => Err(OutOfMemory),
            _ => Ok(self.report()),
        }
    }

    // The last report.
    fn report(&mut self) -> Vec<Error> {
        let mut text = vec![0; 4096];
        let mut needed = 0;
        loop {
            // SAFETY: as above, and the report is written within the slice.
            let status = unsafe {
                vorxindak_report(&mut self.0, text.as_mut_ptr(), text.len(), &mut needed)
            };
            match status {
                TOO_SMALL => text.resize(needed, 0),
                _ => break,
            }
        }
        text.truncate(needed);
        read_report(&text)
    }
}

impl Drop for Schema {
    fn drop(&mut self) {
        // SAFETY: no other call uses the handle.
        unsafe { vorxindak_close(&mut self.0) }
    }
}

impl fmt::Debug for Schema {
    fn fmt(&self, f: &mut fmt::Formatter<'_>) -> fmt::Result {
        f.debug_struct("Schema").finish_non_exhaustive()
    }
}

/// The version of the library.
pub fn version() -> (u32, u32, u32) {
    // SAFETY: it takes nothing.
    let number = unsafe { vorxindak_version() };
    (number / 1_000_000, number / 1_000 % 1_000, number % 1_000)
}
