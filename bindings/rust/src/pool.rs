//! Pools of types.
use crate::near::near;
use crate::report::{linked, written_alone, Report};
use crate::structs::{Bytes, Handle, Refusal};
use crate::{calls, Error, Limits, MessageType};
use std::cell::{Cell, UnsafeCell};
use std::ptr;

/// The message types of a descriptor set, or of sources. A clone holds the same types, at the cost of a small allocation.
///
/// A pool may go to another thread. It is not `Sync`: one thread at a time uses it, so give each thread its own clone.
///
/// ```compile_fail
/// fn shared<T: Sync>() {}
/// shared::<mabristu::Pool>();
/// ```
pub struct Pool {
    handle: UnsafeCell<Handle>,
    left_out: usize,
}

/// The calls that link sources.
type Compiles = unsafe extern "C" fn(*const Bytes, usize, *const Bytes, usize, *mut Handle, &mut Refusal, *mut u8, usize) -> u32;

// SAFETY: what handles share is counted and never changed, so they may be on different threads. By UnsafeCell a pool is not Sync.
unsafe impl Send for Pool {}

// SAFETY, of each call in this crate: a pointer goes with the length of what it points to, and nothing that is written overlaps another. No two calls
// use a handle at once, since its owner is not Sync and no call calls back.
impl Pool {
    fn empty() -> Pool {
        // A library with another interface would have other calls.
        assert_eq!(unsafe { calls::mb_interface() }, calls::INTERFACE);
        Pool { handle: UnsafeCell::new(Handle { at: ptr::null_mut(), full: false }), left_out: 0 }
    }

    pub(crate) fn handle(&self) -> *mut Handle {
        self.handle.get()
    }

    /// Links a descriptor set, as `protoc --include_imports --descriptor_set_out` or `pbtool compile` writes it.
    pub fn link(set: &[u8]) -> Result<Pool, Error> {
        let pool = Pool::empty();
        linked(&[], |fault, path, steps, refusal, text, capacity| unsafe {
            calls::mb_pool_link(set.as_ptr(), set.len(), pool.handle(), fault, path, steps, refusal, text, capacity)
        })?;
        Ok(pool)
    }

    /// Links a descriptor set without the parts of proto2 that [`Pool::link`] refuses: extensions, required labels, default values and the marks of maps
    /// of closed enums. [`Pool::left_out`] is how many parts were left out.
    pub fn link_lenient(set: &[u8]) -> Result<Pool, Error> {
        let (mut pool, left_out) = (Pool::empty(), Cell::new(0));
        linked(&[], |fault, path, steps, refusal, text, capacity| unsafe {
            let mut count = 0;
            let answer = calls::mb_pool_link_lenient(
                set.as_ptr(),
                set.len(),
                pool.handle(),
                &mut count,
                fault,
                path,
                steps,
                refusal,
                text,
                capacity,
            );
            left_out.set(count);
            answer
        })?;
        pool.left_out = left_out.get();
        Ok(pool)
    }

    /// Links sources of proto3: the name of each source, as imports name it, and its text. Imported files have to be among the sources.
    pub fn of_sources<N: AsRef<str>, T: AsRef<[u8]>>(sources: impl IntoIterator<Item = (N, T)>) -> Result<Pool, Error> {
        Pool::compile(calls::mb_pool_compile, sources)
    }

    /// As [`Pool::of_sources`], for sources of all of proto2 and proto3. Custom options, constants in braces, default values, blocks of `extend` and
    /// ranges of extensions are left out. In a file of proto2, a map with values of an enum is the list of its entries.
    pub fn of_sources_lenient<N: AsRef<str>, T: AsRef<[u8]>>(sources: impl IntoIterator<Item = (N, T)>) -> Result<Pool, Error> {
        Pool::compile(calls::mb_pool_compile_lenient, sources)
    }

    fn compile<N: AsRef<str>, T: AsRef<[u8]>>(call: Compiles, sources: impl IntoIterator<Item = (N, T)>) -> Result<Pool, Error> {
        let (pool, sources) = (Pool::empty(), sources.into_iter().collect::<Vec<_>>());
        let listed = |bytes: &[u8]| Bytes { at: bytes.as_ptr(), len: bytes.len() };
        let names: Vec<&str> = sources.iter().map(|(name, _)| name.as_ref()).collect();
        let name_bytes: Vec<Bytes> = names.iter().map(|name| listed(name.as_bytes())).collect();
        let text_bytes: Vec<Bytes> = sources.iter().map(|(_, text)| listed(text.as_ref())).collect();
        linked(&names, |_, _, _, refusal, text, capacity| unsafe {
            let (names, texts) = (name_bytes.as_ptr(), text_bytes.as_ptr());
            call(names, name_bytes.len(), texts, text_bytes.len(), pool.handle(), refusal, text, capacity)
        })?;
        Ok(pool)
    }

    /// A descriptor set of the pool's types. If you link this set, you get the same types. It has no services and options: a pool does not hold them.
    pub fn to_set(&self) -> Result<Vec<u8>, Error> {
        written_alone(|out, capacity, size| unsafe { calls::mb_pool_set(self.handle(), out, capacity, size) })
    }

    /// How many parts of the set [`Pool::link_lenient`] left out.
    pub fn left_out(&self) -> usize {
        self.left_out
    }

    /// A clone, or an error if memory runs out.
    pub fn try_clone(&self) -> Result<Pool, Error> {
        let mut other = Pool::empty();
        other.left_out = self.left_out;
        Report::new().judge(unsafe { calls::mb_pool_share(self.handle(), other.handle()) })?;
        Ok(other)
    }

    /// The message type with a full name, as `shop.Order`.
    pub fn message_type(&self, name: &str) -> Result<MessageType, Error> {
        let mut number = 0;
        let answer = unsafe { calls::mb_pool_type(self.handle(), name.as_ptr(), name.len(), &mut number) };
        Report::new().judge(answer).map_err(|error| match error {
            Error::NoType => Error::UnknownType { name: name.to_owned(), near: near(name, &self.type_names()) },
            error => error,
        })?;
        Ok(MessageType { pool: self.try_clone()?, number, limits: Limits::FULL })
    }
}

impl Clone for Pool {
    /// Panics if memory runs out.
    fn clone(&self) -> Pool {
        self.try_clone().expect("there is memory for a handle")
    }
}

impl Drop for Pool {
    fn drop(&mut self) {
        unsafe { calls::mb_pool_free(self.handle()) }
    }
}
