//! A peer: another library that makes CMAC over SM4. OpenSSL is found by openssl.rs; Botan and libgcrypt are called through the
//! shared objects that bench/run builds from the files of peers/, each with the same two C functions.

use crate::shared::Shared;
use std::env::current_exe;
use std::ffi::{c_char, c_int, CStr, CString};

type Block = [u8; 16];
/// The tag of a key and a message, None where none is made.
type Cmac = dyn Fn(&Block, &[u8]) -> Option<Block>;
/// peer_name.
type Name = unsafe extern "C" fn() -> *const c_char;
/// peer_cmac: key, message, its length, room for the tag; 1 for made.
type MakeCmac = unsafe extern "C" fn(*const u8, *const u8, usize, *mut u8) -> c_int;

pub struct Peer {
    /// As "Botan 2.19.3".
    pub name: String,
    cmac: Box<Cmac>,
}

impl Peer {
    /// None where it makes no tag.
    pub fn tried(name: String, cmac: impl Fn(&Block, &[u8]) -> Option<Block> + 'static) -> Option<Peer> {
        cmac(&[0; 16], &[])?;
        Some(Peer { name, cmac: Box::new(cmac) })
    }

    /// The whole tag; None where the key is not of 16 bytes or the peer makes no tag.
    pub fn cmac(&self, key: &[u8], message: &[u8]) -> Option<Block> {
        (self.cmac)(key.try_into().ok()?, message)
    }
}

/// The peer that bench/run built as target/peers/FILE; this program is target/release/bench. None where it was not built, cannot be
/// loaded or makes no tag.
pub fn built(file: &str) -> Option<Peer> {
    let path = current_exe().ok()?.ancestors().nth(2)?.join("peers").join(file);
    let library = Shared::load(&CString::new(path.into_os_string().into_encoded_bytes()).ok()?)?;
    // SAFETY: the files of peers/ define the two functions with these types; the name is a text that stays.
    let (name, make_cmac) = unsafe {
        let name: Name = library.function(c"peer_name")?;
        (CStr::from_ptr(name()), library.function::<MakeCmac>(c"peer_cmac")?)
    };
    Peer::tried(name.to_str().ok()?.into(), move |key, message| {
        let mut tag = [0; 16];
        // SAFETY: key and tag are of 16 bytes, the message goes with its length.
        let made = unsafe { make_cmac(key.as_ptr(), message.as_ptr(), message.len(), tag.as_mut_ptr()) };
        (made == 1).then_some(tag)
    })
}
