//! SQLite with a write-ahead log.

use super::library::Library;
use super::Peer;
use crate::programs::StepWrite;
use std::ffi::{c_char, c_int, c_void, CString};
use std::path::Path;
use std::ptr::{null, null_mut};

type Handle = *mut c_void;
type Exec = extern "C" fn(Handle, *const c_char, *const c_void, Handle, Handle) -> c_int;
type Prepare = extern "C" fn(Handle, *const c_char, c_int, *mut Handle, Handle) -> c_int;
type BindBlob = extern "C" fn(Handle, c_int, *const u8, c_int, *const c_void) -> c_int;
type BindInt = extern "C" fn(Handle, c_int, c_int) -> c_int;
type OfStatement = extern "C" fn(Handle) -> c_int;

const OK: c_int = 0;
const DONE: c_int = 101;

struct Sqlite {
    synchronous: &'static str,
    version: String,
    begin: Handle,
    update: Handle,
    commit: Handle,
    bind_blob: BindBlob,
    bind_int: BindInt,
    advance: OfStatement,
    reset: OfStatement,
}

pub fn open(folder: &Path, synchronous: &'static str) -> Result<Box<dyn Peer>, String> {
    let library = Library::open(c"libsqlite3.so.0")?;
    let db = opened(library, &folder.join(format!("sqlite-{synchronous}")))?;
    // SAFETY: the types are those of sqlite3.h.
    unsafe {
        let exec: Exec = library.function(c"sqlite3_exec")?;
        run(exec, db, "PRAGMA journal_mode=WAL")?;
        run(exec, db, &format!("PRAGMA synchronous={synchronous}"))?;
        run(
            exec,
            db,
            "CREATE TABLE pattern (place INTEGER PRIMARY KEY, bytes BLOB)",
        )?;
        run(exec, db, FILL)?;
        let version: extern "C" fn() -> *const c_char = library.function(c"sqlite3_libversion")?;
        let version = std::ffi::CStr::from_ptr(version());
        Ok(Box::new(Sqlite {
            synchronous,
            version: version.to_string_lossy().into_owned(),
            begin: prepared(library, db, "BEGIN")?,
            update: prepared(
                library,
                db,
                "UPDATE pattern SET bytes = ?1 WHERE place = ?2",
            )?,
            commit: prepared(library, db, "COMMIT")?,
            bind_blob: library.function(c"sqlite3_bind_blob")?,
            bind_int: library.function(c"sqlite3_bind_int")?,
            advance: library.function(c"sqlite3_step")?,
            reset: library.function(c"sqlite3_reset")?,
        }))
    }
}

/// As many rows of 32 bytes as the pattern has room for.
const FILL: &str = "INSERT INTO pattern WITH RECURSIVE places(place) AS \
    (SELECT 0 UNION ALL SELECT place + 1 FROM places WHERE place < 127) \
    SELECT place, zeroblob(32) FROM places";

fn opened(library: Library, file: &Path) -> Result<Handle, String> {
    // SAFETY: the type is that of sqlite3.h.
    let open: extern "C" fn(*const c_char, *mut Handle) -> c_int =
        unsafe { library.function(c"sqlite3_open")? };
    let name = text(&file.to_string_lossy());
    let mut db = null_mut();
    held(open(name.as_ptr(), &mut db), OK, "open")?;
    Ok(db)
}

fn run(exec: Exec, db: Handle, sql: &str) -> Result<(), String> {
    let words = text(sql);
    held(
        exec(db, words.as_ptr(), null(), null_mut(), null_mut()),
        OK,
        sql,
    )
}

fn prepared(library: Library, db: Handle, sql: &str) -> Result<Handle, String> {
    // SAFETY: the type is that of sqlite3.h.
    let prepare: Prepare = unsafe { library.function(c"sqlite3_prepare_v2")? };
    let words = text(sql);
    let mut statement = null_mut();
    held(
        prepare(db, words.as_ptr(), -1, &mut statement, null_mut()),
        OK,
        sql,
    )?;
    Ok(statement)
}

fn text(words: &str) -> CString {
    CString::new(words).expect("no zero byte")
}

fn held(code: c_int, wanted: c_int, what: &str) -> Result<(), String> {
    match code == wanted {
        true => Ok(()),
        false => Err(format!("SQLite: {what}: code {code}")),
    }
}

impl Sqlite {
    fn carry_out(&self, statement: Handle) {
        held((self.advance)(statement), DONE, "step").unwrap();
        held((self.reset)(statement), OK, "reset").unwrap();
    }
}

impl Peer for Sqlite {
    fn name(&self) -> String {
        format!(
            "SQLite {}, WAL, synchronous={}",
            self.version, self.synchronous
        )
    }

    fn step(&mut self, writes: &[StepWrite; 3]) {
        self.carry_out(self.begin);
        for (place, bytes) in writes {
            // A null destructor: the bytes outlive the step.
            (self.bind_blob)(self.update, 1, bytes.as_ptr(), bytes.len() as c_int, null());
            (self.bind_int)(self.update, 2, *place as c_int);
            self.carry_out(self.update);
        }
        self.carry_out(self.commit);
    }
}
