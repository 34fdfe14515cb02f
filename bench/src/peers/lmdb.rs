//! LMDB: a memory-mapped tree, copied on write.

use super::library::Library;
use super::Peer;
use crate::programs::StepWrite;
use std::ffi::{c_char, c_int, c_uint, c_void, CString};
use std::path::Path;
use std::ptr::{null, null_mut};

type Handle = *mut c_void;
type TxnBegin = extern "C" fn(Handle, Handle, c_uint, *mut Handle) -> c_int;
type Put = extern "C" fn(Handle, c_uint, *const Value, *const Value, c_uint) -> c_int;
type Commit = extern "C" fn(Handle) -> c_int;

pub const NOSYNC: c_uint = 0x1_0000;
const NOSUBDIR: c_uint = 0x4000;
const INTEGERKEY: c_uint = 0x08;
const CREATE: c_uint = 0x4_0000;

/// MDB_val.
#[repr(C)]
struct Value {
    size: usize,
    data: *const c_void,
}

impl Value {
    fn of<T>(data: &T) -> Value {
        Value {
            size: size_of::<T>(),
            data: (data as *const T).cast(),
        }
    }
}

struct Lmdb {
    how: &'static str,
    env: Handle,
    table: c_uint,
    txn_begin: TxnBegin,
    put: Put,
    commit: Commit,
}

pub fn open(folder: &Path, how: &'static str, flags: c_uint) -> Result<Box<dyn Peer>, String> {
    let library = Library::open(c"liblmdb.so.0")?;
    let env = opened(library, &folder.join(format!("lmdb-{flags}")), flags)?;
    // SAFETY: the types are those of lmdb.h.
    let mut lmdb = unsafe {
        Lmdb {
            how,
            env,
            table: 0,
            txn_begin: library.function(c"mdb_txn_begin")?,
            put: library.function(c"mdb_put")?,
            commit: library.function(c"mdb_txn_commit")?,
        }
    };
    lmdb.fill(library)?;
    Ok(Box::new(lmdb))
}

fn opened(library: Library, file: &Path, flags: c_uint) -> Result<Handle, String> {
    // SAFETY: the types are those of lmdb.h.
    let (create, open) = unsafe {
        let create: extern "C" fn(*mut Handle) -> c_int = library.function(c"mdb_env_create")?;
        let open: extern "C" fn(Handle, *const c_char, c_uint, c_uint) -> c_int =
            library.function(c"mdb_env_open")?;
        (create, open)
    };
    let name = CString::new(&*file.to_string_lossy()).expect("no zero byte");
    let mut env = null_mut();
    held(create(&mut env), "create")?;
    held(open(env, name.as_ptr(), flags | NOSUBDIR, 0o600), "open")?;
    Ok(env)
}

fn held(code: c_int, what: &str) -> Result<(), String> {
    match code {
        0 => Ok(()),
        _ => Err(format!("LMDB: {what}: code {code}")),
    }
}

impl Lmdb {
    fn begin(&self) -> Handle {
        let mut txn = null_mut();
        held((self.txn_begin)(self.env, null_mut(), 0, &mut txn), "begin").unwrap();
        txn
    }

    fn put(&self, txn: Handle, place: u32, bytes: &[u8; 32]) {
        let (key, value) = (Value::of(&place), Value::of(bytes));
        held((self.put)(txn, self.table, &key, &value, 0), "put").unwrap();
    }

    /// As many entries of 32 bytes as the pattern has room for.
    fn fill(&mut self, library: Library) -> Result<(), String> {
        // SAFETY: the type is that of lmdb.h.
        let open: extern "C" fn(Handle, *const c_char, c_uint, *mut c_uint) -> c_int =
            unsafe { library.function(c"mdb_dbi_open")? };
        let txn = self.begin();
        let flags = INTEGERKEY | CREATE;
        held(open(txn, null(), flags, &mut self.table), "open a table")?;
        for place in 0..128 {
            self.put(txn, place, &[0; 32]);
        }
        held((self.commit)(txn), "commit")
    }
}

impl Peer for Lmdb {
    fn name(&self) -> String {
        format!("LMDB, {}", self.how)
    }

    fn step(&mut self, writes: &[StepWrite; 3]) {
        let txn = self.begin();
        for (place, bytes) in writes {
            self.put(txn, *place as u32, bytes);
        }
        held((self.commit)(txn), "commit").unwrap();
    }
}
