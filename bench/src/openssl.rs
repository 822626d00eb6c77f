//! OpenSSL's CMAC over SM4, where its shared library of version 3 is installed. Its functions are declared by hand.

use crate::peer::Peer;
use crate::shared::Shared;
use std::ffi::{c_char, c_int, c_uint, c_void, CStr};
use std::ptr::{null, null_mut};

const FULL_VERSION: c_int = 0;
const UTF8_STRING: c_uint = 4;

/// OSSL_PARAM. A list of them ends with one of nulls.
#[repr(C)]
struct Parameter {
    name: *const c_char,
    kind: c_uint,
    value: *const c_char,
    length: usize,
    length_given_back: usize,
}

/// EVP_MAC_fetch: library context, name, properties.
type Fetch = unsafe extern "C" fn(*mut c_void, *const c_char, *const c_char) -> *mut c_void;
/// EVP_MAC_CTX_new.
type NewContext = unsafe extern "C" fn(*mut c_void) -> *mut c_void;
/// EVP_MAC_init: context, key, its length, parameters.
type Init = unsafe extern "C" fn(*mut c_void, *const u8, usize, *const Parameter) -> c_int;
/// EVP_MAC_update: context, data, its length.
type Update = unsafe extern "C" fn(*mut c_void, *const u8, usize) -> c_int;
/// EVP_MAC_final: context, room, length written, the room's length.
type Final = unsafe extern "C" fn(*mut c_void, *mut u8, *mut usize, usize) -> c_int;
type Version = unsafe extern "C" fn(c_int) -> *const c_char;

/// None where the library, one of its functions or its CMAC over SM4 is missing.
pub fn find() -> Option<Peer> {
    let library = Shared::load(c"libcrypto.so.3")?;
    // SAFETY: the functions have these types in every OpenSSL of version 3.
    let (fetch, new_context, init, update, finish, version) = unsafe {
        (
            library.function::<Fetch>(c"EVP_MAC_fetch")?,
            library.function::<NewContext>(c"EVP_MAC_CTX_new")?,
            library.function::<Init>(c"EVP_MAC_init")?,
            library.function::<Update>(c"EVP_MAC_update")?,
            library.function::<Final>(c"EVP_MAC_final")?,
            library.function::<Version>(c"OpenSSL_version")?,
        )
    };
    let cipher = c"SM4-CBC";
    let length = cipher.count_bytes();
    let parameters = [
        Parameter {
            name: c"cipher".as_ptr(),
            kind: UTF8_STRING,
            value: cipher.as_ptr(),
            length,
            length_given_back: 0,
        },
        Parameter { name: null(), kind: 0, value: null(), length: 0, length_given_back: 0 },
    ];
    // SAFETY: each text ends in a zero byte, the list of parameters as it should; the other nulls ask for what is usual.
    let (context, version) = unsafe {
        let mac = fetch(null_mut(), c"CMAC".as_ptr(), null());
        if mac.is_null() {
            return None;
        }
        let context = new_context(mac);
        if context.is_null() || init(context, [0; 16].as_ptr(), 16, parameters.as_ptr()) != 1 {
            return None;
        }
        (context, CStr::from_ptr(version(FULL_VERSION)))
    };
    let words: Vec<_> = version.to_str().ok()?.split(' ').take(2).collect();
    // The context keeps the cipher; the key is set with each call.
    Peer::tried(words.join(" "), move |key, message| {
        let (mut tag, mut written) = ([0; 16], 0);
        // SAFETY: the context is never freed; each other pointer is a slice's or an array's, with its length.
        let made = unsafe {
            init(context, key.as_ptr(), key.len(), null()) == 1
                && update(context, message.as_ptr(), message.len()) == 1
                && finish(context, tag.as_mut_ptr(), &mut written, tag.len()) == 1
        };
        (made && written == tag.len()).then_some(tag)
    })
}
