//! Signatures of LMS and HSS (RFC 8554, SHA-256), and chains of certificates, verified by proved code.
//!
//! Each function is a safe call of one that `mb_library.h` declares, which says what it answers and how much stack it
//! takes. What is proved of them is in `crates/mb_library`; nothing of this file is.
#![no_std]

/// What a call tells beside its code, as the header declares it.
#[repr(C)]
#[derive(Default)]
struct Details {
    listing: usize,
    offset: u32,
    entry: u32,
    named: u32,
    last: u32,
    line: u32,
    configuration: u32,
}

/// What is told of a statement, as the header declares it.
#[repr(C)]
struct Stated {
    kind: u32,
    length: u32,
    input: [u8; 32],
    bytes: [u8; 128],
}

unsafe extern "C" {
    fn mb_lms_verify(
        key: *const u8,
        text: *const u8,
        text_length: usize,
        signature: *const u8,
        signature_length: usize,
    ) -> bool;
    fn mb_lms_verdict(
        key: *const u8,
        key_length: usize,
        text: *const u8,
        text_length: usize,
        signature: *const u8,
        signature_length: usize,
    ) -> u32;
    fn mb_hss_verify(
        key: *const u8,
        text: *const u8,
        text_length: usize,
        signature: *const u8,
        signature_length: usize,
    ) -> bool;
    fn mb_chain_verify(
        maker: *const u8,
        chain: *const u8,
        chain_length: usize,
        key: u32,
        listing: *mut u8,
        listing_room: usize,
        details: *mut Details,
    ) -> u32;
    fn mb_chain_said(
        maker: *const u8,
        chain: *const u8,
        chain_length: usize,
        key: u32,
        stated: *mut Stated,
        details: *mut Details,
    ) -> u32;
    fn mb_trust(
        maker: *const u8,
        chain: *const u8,
        chain_length: usize,
        key: u32,
        policy: *const u8,
        policy_length: usize,
        details: *mut Details,
    ) -> u32;
}

/// Why a signature, a chain or a key is not accepted.
#[derive(Clone, Copy, Debug, PartialEq, Eq)]
pub enum Refusal {
    /// The bytes of the key spell no key.
    NoKey,
    /// The signature is not one of the text under the key.
    BadSignature,
    /// The chain or the policy has more than 4,194,304 bytes.
    TooLong,
    /// An allocation failed.
    NoMemory,
    /// The chain is accepted, and its listing has this many bytes, for which there is no room.
    NoRoom { length: usize },
    /// This line of the policy, from 1, is the first that is wrong.
    BadPolicy { line: u32 },
    /// The chain is accepted, and the configuration with this number is the first that the policy denies.
    Denied { configuration: u32 },
    /// The bytes are no chain, from this offset on.
    Form { offset: u32 },
    /// This entry, from 0, is not signed by the key in charge.
    Signature { entry: u32 },
    /// This entry, from 0, is not in its place.
    Order { entry: u32 },
    /// This entry, from 0, breaks the rules of the log.
    Rules { entry: u32 },
    /// No entry makes the key.
    KeyUnknown,
    /// The statement is not signed by the key.
    Statement,
    /// The statement names another configuration than the chain's last.
    StatementNumber { named: u32, last: u32 },
    /// There is a statement, and the key has ended.
    NotAlive,
}

/// What a code other than 0 says. It is proved that no call answers any that stands not here.
fn refusal(code: u32, details: &Details) -> Refusal {
    match code {
        1 => Refusal::NoKey,
        2 => Refusal::BadSignature,
        3 => Refusal::TooLong,
        4 => Refusal::NoMemory,
        5 => Refusal::NoRoom {
            length: details.listing,
        },
        6 => Refusal::BadPolicy { line: details.line },
        7 => Refusal::Denied {
            configuration: details.configuration,
        },
        20 => Refusal::Form {
            offset: details.offset,
        },
        21 => Refusal::Signature {
            entry: details.entry,
        },
        22 => Refusal::Order {
            entry: details.entry,
        },
        23 => Refusal::Rules {
            entry: details.entry,
        },
        24 => Refusal::KeyUnknown,
        25 => Refusal::Statement,
        26 => Refusal::StatementNumber {
            named: details.named,
            last: details.last,
        },
        27 => Refusal::NotAlive,
        _ => panic!("mb_library answered {code}, which is no code of its own"),
    }
}

/// Whether `signature` is one of `text` under the LMS key that the bytes spell (RFC 8554, section 5.4.2).
#[must_use]
pub fn lms_verify(key: &[u8; 56], text: &[u8], signature: &[u8]) -> bool {
    // SAFETY: each pointer and length are those of one slice or array, which is borrowed during the call.
    unsafe {
        mb_lms_verify(
            key.as_ptr(),
            text.as_ptr(),
            text.len(),
            signature.as_ptr(),
            signature.len(),
        )
    }
}

/// Why `signature` is not one of `text` under the LMS key that the bytes, of any length, spell: `NoKey` or
/// `BadSignature`.
pub fn lms_verdict(key: &[u8], text: &[u8], signature: &[u8]) -> Result<(), Refusal> {
    // SAFETY: as in `lms_verify`.
    let code = unsafe {
        mb_lms_verdict(
            key.as_ptr(),
            key.len(),
            text.as_ptr(),
            text.len(),
            signature.as_ptr(),
            signature.len(),
        )
    };
    answer(code, &Details::default())
}

/// Whether `signature` is one of `text` under the HSS key that the bytes spell (RFC 8554, section 6.3).
#[must_use]
pub fn hss_verify(key: &[u8; 60], text: &[u8], signature: &[u8]) -> bool {
    // SAFETY: as in `lms_verify`.
    unsafe {
        mb_hss_verify(
            key.as_ptr(),
            text.as_ptr(),
            text.len(),
            signature.as_ptr(),
            signature.len(),
        )
    }
}

/// Verifies a chain under the maker's key, and puts the listing on the key with the number `key` at the front of
/// `listing`. The answer is the listing.
pub fn chain_verify<'a>(
    maker: &[u8; 56],
    chain: &[u8],
    key: u32,
    listing: &'a mut [u8],
) -> Result<&'a [u8], Refusal> {
    let mut details = Details::default();
    // SAFETY: as in `lms_verify`; what is written is borrowed for this call alone, so nothing else overlaps it.
    let code = unsafe {
        mb_chain_verify(
            maker.as_ptr(),
            chain.as_ptr(),
            chain.len(),
            key,
            listing.as_mut_ptr(),
            listing.len(),
            &mut details,
        )
    };
    answer(code, &details)?;
    Ok(&listing[..details.listing])
}

/// What the statement of a chain says.
#[derive(Clone, Copy, Debug, PartialEq, Eq)]
pub enum Said {
    /// A message, which the host of the device chose: the first so many of the bytes, which zeros follow.
    Message { length: usize, bytes: [u8; 128] },
    /// What the code of the key's layer answered to the input with this SHA-256, in a call.
    Answer {
        input: [u8; 32],
        length: usize,
        bytes: [u8; 128],
    },
}

impl Said {
    /// The message or the answer.
    #[must_use]
    pub fn bytes(&self) -> &[u8] {
        match self {
            Said::Message { length, bytes } | Said::Answer { length, bytes, .. } => &bytes[..*length],
        }
    }
}

/// Verifies a chain under the maker's key for the key with the number `key`. The answer is what its statement says, or
/// `None` if it has none.
pub fn chain_said(maker: &[u8; 56], chain: &[u8], key: u32) -> Result<Option<Said>, Refusal> {
    let mut details = Details::default();
    let mut stated = Stated {
        kind: 0,
        length: 0,
        input: [0; 32],
        bytes: [0; 128],
    };
    // SAFETY: as in `chain_verify`.
    let code = unsafe {
        mb_chain_said(
            maker.as_ptr(),
            chain.as_ptr(),
            chain.len(),
            key,
            &mut stated,
            &mut details,
        )
    };
    answer(code, &details)?;
    let (length, bytes) = (stated.length as usize, stated.bytes);
    Ok(match stated.kind {
        0 => None,
        1 => Some(Said::Message { length, bytes }),
        2 => Some(Said::Answer {
            input: stated.input,
            length,
            bytes,
        }),
        kind => panic!("mb_library told {kind}, which is no kind of a statement"),
    })
}

/// Verifies a chain under the maker's key, and has the policy judge each configuration in which the key with the number
/// `key` lived.
pub fn trust(maker: &[u8; 56], chain: &[u8], key: u32, policy: &[u8]) -> Result<(), Refusal> {
    let mut details = Details::default();
    // SAFETY: as in `chain_verify`.
    let code = unsafe {
        mb_trust(
            maker.as_ptr(),
            chain.as_ptr(),
            chain.len(),
            key,
            policy.as_ptr(),
            policy.len(),
            &mut details,
        )
    };
    answer(code, &details)
}

fn answer(code: u32, details: &Details) -> Result<(), Refusal> {
    if code == 0 {
        Ok(())
    } else {
        Err(refusal(code, details))
    }
}
