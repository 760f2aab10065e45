//! The statuses of the calls for C, named as in `jwtproved.h` without the prefix `JWT_`.

pub const OK: u32 = 0;
pub const INVALID_SIGNATURE: u32 = 2;
pub const INVALID_ALGORITHM_NAME: u32 = 6;
pub const UNSUPPORTED_ALGORITHM: u32 = 7;
pub const INVALID_KEY_FORMAT: u32 = 8;
pub const EXPIRED_SIGNATURE: u32 = 9;
pub const INVALID_ISSUER: u32 = 10;
pub const INVALID_AUDIENCE: u32 = 11;
pub const INVALID_SUBJECT: u32 = 12;
pub const IMMATURE_SIGNATURE: u32 = 13;
pub const INVALID_ALGORITHM: u32 = 14;
pub const SIGNING: u32 = 17;
pub const PROVIDER: u32 = 18;
pub const BASE64: u32 = 19;
pub const JSON: u32 = 20;
pub const OUT_OF_MEMORY: u32 = 22;
pub const INVALID_CRIT: u32 = 24;
pub const NO_KEY: u32 = 25;
pub const MISSING_EXP: u32 = 40;
pub const MISSING_SUB: u32 = 44;
pub const MISSING_CLAIM: u32 = 59;
pub const MALFORMED_EXP: u32 = 60;
pub const MALFORMED_SUB: u32 = 64;
pub const MALFORMED_CLAIM: u32 = 79;
pub const BUFFER_TOO_SMALL: u32 = 100;
pub const BAD_OPTIONS: u32 = 101;
pub const BAD_HEADER: u32 = 104;
pub const BAD_CLAIMS: u32 = 105;
pub const BAD_KEY: u32 = 106;
pub const ALL_ZERO_SECRET: u32 = 107;
pub const NO_USABLE_KEY: u32 = 110;
pub const TOKEN_TOO_LONG: u32 = 111;
pub const KEY_AS_SECRET: u32 = 113;
pub const NOT_FOR_SIGNATURES: u32 = 115;
pub const IS_CERTIFICATE: u32 = 116;
pub const UNFIT_KEY: u32 = 118;

/// The place of `iat` among the claims that a refusal is about, `JWT_CLAIM_IAT`.
pub const CLAIM_IAT: u32 = u32::MAX;
