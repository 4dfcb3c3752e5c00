//! MD5 of the library, and of OpenSSL's libcrypto, as functions of a slice.

pub type Digest = [u8; 16];

mod symbols {
    extern "C" {
        pub fn pcp_raw_md5(bytes: *const u8, length: usize, digest: *mut u8, digest_length: usize) -> u8;
    }

    #[link(name = "crypto")]
    extern "C" {
        pub fn MD5(bytes: *const u8, length: usize, digest: *mut u8) -> *mut u8;
    }
}

#[inline]
pub fn library(bytes: &[u8]) -> Digest {
    let mut digest = [0; 16];
    // SAFETY: the pointers and lengths are those of slices, and the digest is borrowed by nobody else.
    let number =
        unsafe { symbols::pcp_raw_md5(bytes.as_ptr(), bytes.len(), digest.as_mut_ptr(), digest.len()) };
    assert_eq!(number, 0);
    digest
}

#[inline]
pub fn openssl(bytes: &[u8]) -> Digest {
    let mut digest = [0; 16];
    // SAFETY: the pointer and the length are those of a slice; a digest has 16 bytes.
    unsafe {
        symbols::MD5(bytes.as_ptr(), bytes.len(), digest.as_mut_ptr());
    }
    digest
}
