//! AES-128-GCM, OpenSSL's, with a nonce of 12 bytes and a tag of 16.

use std::ffi::{c_int, c_void};
use std::ptr::{null, null_mut};

/// Bytes of a tag.
pub const TAG_LEN: usize = 16;

const SET_TAG: c_int = 0x11;
const GET_TAG: c_int = 0x10;

#[link(name = "crypto")]
unsafe extern "C" {
    fn EVP_CIPHER_CTX_new() -> *mut c_void;
    fn EVP_CIPHER_CTX_free(ctx: *mut c_void);
    fn EVP_CIPHER_CTX_ctrl(ctx: *mut c_void, what: c_int, arg: c_int, ptr: *mut c_void) -> c_int;
    fn EVP_aes_128_gcm() -> *const c_void;
    fn EVP_CipherInit_ex(
        ctx: *mut c_void,
        cipher: *const c_void,
        engine: *mut c_void,
        key: *const u8,
        iv: *const u8,
        enc: c_int,
    ) -> c_int;
    fn EVP_CipherUpdate(ctx: *mut c_void, out: *mut u8, outl: *mut c_int, input: *const u8, inl: c_int) -> c_int;
    fn EVP_CipherFinal_ex(ctx: *mut c_void, out: *mut u8, outl: *mut c_int) -> c_int;
}

/// A key, ready to seal and to open.
#[derive(Debug)]
pub struct Cipher {
    key: [u8; 16],
    seals: *mut c_void,
    opens: *mut c_void,
}

/// A context for a key.
fn context(key: &[u8; 16], enc: c_int) -> *mut c_void {
    // SAFETY: the context is a new one, and the key has the cipher's 16 bytes.
    unsafe {
        let ctx = EVP_CIPHER_CTX_new();
        assert!(!ctx.is_null(), "OpenSSL has no memory");
        let done = EVP_CipherInit_ex(ctx, EVP_aes_128_gcm(), null_mut(), key.as_ptr(), null(), enc);
        assert!(done == 1, "OpenSSL takes no key");
        ctx
    }
}

impl Cipher {
    pub fn new(key: &[u8; 16]) -> Cipher {
        Cipher { key: *key, seals: context(key, 1), opens: context(key, 0) }
    }

    /// The key.
    pub fn key(&self) -> &[u8; 16] {
        &self.key
    }

    /// Ciphertext and tag.
    pub fn seal(&self, nonce: &[u8; 12], data: &[u8], text: &[u8]) -> Vec<u8> {
        let mut out = vec![0; text.len() + TAG_LEN];
        // SAFETY: every pointer is read or written for the length beside it, and out has room for text and tag.
        unsafe {
            let mut len = 0;
            let ctx = self.seals;
            let end = out.as_mut_ptr().add(text.len());
            let done = EVP_CipherInit_ex(ctx, null(), null_mut(), null(), nonce.as_ptr(), 1) == 1
                && EVP_CipherUpdate(ctx, null_mut(), &mut len, data.as_ptr(), data.len() as c_int) == 1
                && EVP_CipherUpdate(ctx, out.as_mut_ptr(), &mut len, text.as_ptr(), text.len() as c_int) == 1
                && EVP_CipherFinal_ex(ctx, end, &mut len) == 1
                && EVP_CIPHER_CTX_ctrl(ctx, GET_TAG, TAG_LEN as c_int, end.cast()) == 1;
            assert!(done, "OpenSSL does not seal");
        }
        out
    }

    /// The text, where the tag is right.
    pub fn open(&self, nonce: &[u8; 12], data: &[u8], body: &[u8]) -> Option<Vec<u8>> {
        let n = body.len().checked_sub(TAG_LEN)?;
        let mut tag = [0; TAG_LEN];
        tag.copy_from_slice(&body[n..]);
        let mut out = vec![0; n];
        // SAFETY: every pointer is read or written for the length beside it, and out has room for the text.
        unsafe {
            let mut len = 0;
            let ctx = self.opens;
            let fed = EVP_CipherInit_ex(ctx, null(), null_mut(), null(), nonce.as_ptr(), 0) == 1
                && EVP_CipherUpdate(ctx, null_mut(), &mut len, data.as_ptr(), data.len() as c_int) == 1
                && EVP_CipherUpdate(ctx, out.as_mut_ptr(), &mut len, body.as_ptr(), n as c_int) == 1
                && EVP_CIPHER_CTX_ctrl(ctx, SET_TAG, TAG_LEN as c_int, tag.as_mut_ptr().cast()) == 1;
            assert!(fed, "OpenSSL does not open");
            let mut rest = [0; 16];
            (EVP_CipherFinal_ex(ctx, rest.as_mut_ptr(), &mut len) == 1).then_some(out)
        }
    }
}

impl Drop for Cipher {
    fn drop(&mut self) {
        // SAFETY: both contexts are this value's own.
        unsafe {
            EVP_CIPHER_CTX_free(self.seals);
            EVP_CIPHER_CTX_free(self.opens);
        }
    }
}

/// A product in GF(2^8), modulo x^8 + x^4 + x^3 + x + 1.
fn product(a: u8, b: u8) -> u8 {
    (0..8).rev().fold(0, |sum: u8, i| {
        let doubled = sum << 1 ^ if sum & 0x80 != 0 { 0x1b } else { 0 };
        doubled ^ if b >> i & 1 == 1 { a } else { 0 }
    })
}

/// The AES S-box by its rule: the affine map of the inverse, with 0 for the inverse of 0.
pub fn s_box(byte: u8) -> u8 {
    let inverse = (0..=255).find(|&other| product(byte, other) == 1).unwrap_or(0);
    (0..5).fold(0x63, |sum, turn| sum ^ inverse.rotate_left(turn))
}

#[cfg(test)]
mod tests {
    use super::*;

    /// The bench sheet's M2, and the last entry of FIPS 197's table.
    #[test]
    fn s_box_entries() {
        assert_eq!((s_box(0x00), s_box(0x53), s_box(0xff)), (0x63, 0xed, 0x16));
    }

    /// Test case 4 of the GCM paper.
    #[test]
    fn known_answer() {
        let hex = |s: &str| -> Vec<u8> {
            (0..s.len() / 2).filter_map(|i| u8::from_str_radix(&s[2 * i..2 * i + 2], 16).ok()).collect()
        };
        let mut key = [0; 16];
        key.copy_from_slice(&hex("feffe9928665731c6d6a8f9467308308"));
        let mut nonce = [0; 12];
        nonce.copy_from_slice(&hex("cafebabefacedbaddecaf888"));
        let data = hex("feedfacedeadbeeffeedfacedeadbeefabaddad2");
        let text = hex(concat!(
            "d9313225f88406e5a55909c5aff5269a86a7a9531534f7da2e4c303d8a318a72",
            "1c3c0c95956809532fcf0e2449a6b525b16aedf5aa0de657ba637b39"
        ));
        let cipher = Cipher::new(&key);
        let body = cipher.seal(&nonce, &data, &text);
        assert_eq!(body[text.len()..], hex("5bc94fbc3221a5db94fae95ae7121a47")[..]);
        assert_eq!(cipher.open(&nonce, &data, &body), Some(text));
        let mut forged = body;
        forged[3] ^= 1;
        assert_eq!(cipher.open(&nonce, &data, &forged), None);
        assert_eq!(cipher.open(&nonce, &data, &forged[..15]), None);
    }
}
