//! The commands that the store serves. A name with Q is quiet: a get that finds nothing and a write that succeeds have
//! no reply.

/// Key.
pub const GET: u8 = 0x00;
/// 8 extras (flags, expiry), key, a value of 0 bytes or more.
pub const SET: u8 = 0x01;
/// As [`SET`], where the key isn't live.
pub const ADD: u8 = 0x02;
/// As [`SET`], where the key is live.
pub const REPLACE: u8 = 0x03;
/// Key.
pub const DELETE: u8 = 0x04;
/// 20 extras (delta, initial, expiry), key.
pub const INCREMENT: u8 = 0x05;
/// As [`INCREMENT`], down to 0.
pub const DECREMENT: u8 = 0x06;
/// Quiet [`GET`].
pub const GETQ: u8 = 0x09;
/// Nothing after the header.
pub const NOOP: u8 = 0x0a;
/// Nothing after the header.
pub const VERSION: u8 = 0x0b;
/// As [`GET`], with the key in the reply.
pub const GETK: u8 = 0x0c;
/// Quiet [`GETK`].
pub const GETKQ: u8 = 0x0d;
/// Key, a value of 0 bytes or more that is put after the document's. Flags and expiry stay.
pub const APPEND: u8 = 0x0e;
/// As [`APPEND`], before the document's value.
pub const PREPEND: u8 = 0x0f;
/// Quiet [`SET`].
pub const SETQ: u8 = 0x11;
/// Quiet [`ADD`].
pub const ADDQ: u8 = 0x12;
/// Quiet [`REPLACE`].
pub const REPLACEQ: u8 = 0x13;
/// Quiet [`DELETE`].
pub const DELETEQ: u8 = 0x14;
/// Quiet [`INCREMENT`].
pub const INCREMENTQ: u8 = 0x15;
/// Quiet [`DECREMENT`].
pub const DECREMENTQ: u8 = 0x16;
/// Quiet [`APPEND`].
pub const APPENDQ: u8 = 0x19;
/// Quiet [`PREPEND`].
pub const PREPENDQ: u8 = 0x1a;
/// 4 extras (expiry), key. Gives a live document another expiry, whatever the header CAS. Never quiet.
pub const TOUCH: u8 = 0x1c;
/// As [`TOUCH`], with the reply of [`GET`] and the new CAS.
pub const GET_AND_TOUCH: u8 = 0x1d;
/// 24, 26, 28 or 30 extras, or the 25 of the layout of 2012, key, a value of 1 byte or more, extended meta.
pub const SET_WITH_META: u8 = 0xa2;
/// Quiet [`SET_WITH_META`].
pub const SETQ_WITH_META: u8 = 0xa3;
/// As [`SET_WITH_META`], where the key isn't live.
pub const ADD_WITH_META: u8 = 0xa4;
/// Quiet [`ADD_WITH_META`].
pub const ADDQ_WITH_META: u8 = 0xa5;
/// 24, 26, 28 or 30 extras, or the 25 of the layout of 2012, key, extended meta.
pub const DELETE_WITH_META: u8 = 0xa8;
/// Quiet [`DELETE_WITH_META`].
pub const DELETEQ_WITH_META: u8 = 0xa9;
/// No extras or 4 (a count of 1 or more; 1,000 where there is none), no key or one to start at. Lists the keys of live
/// documents in byte order; the reply's value is, for each key, its length in 4 bytes and its bytes. Never quiet.
///
/// The listing ends with the last key, at the count, or before the first key that would carry it past
/// [`LISTING_MAX`](crate::LISTING_MAX) bytes. To go on, ask from the last key listed with a count of 2 or more, and
/// leave out the answer's first key where it is that one; where nothing else comes, all are listed.
pub const GET_KEYS: u8 = 0xb8;
