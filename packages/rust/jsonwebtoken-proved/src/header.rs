//! The header of a token.

use crate::Algorithm;
use crate::base64::{self, STANDARD};
use crate::errors::Result;
use crate::jwk::Jwk;
use serde::de::{DeserializeOwned, Deserializer};
use serde::ser::{Error as _, Serializer};
use serde::{Deserialize, Serialize};
use serde_json::Value;
use std::collections::BTreeMap;
use std::hash::{Hash, Hasher};

/// Declares an enumeration of registered names, and any other name, which is read from and written as a text.
macro_rules! names {
    ($(#[$about:meta])* $name:ident { $($(#[$doc:meta])* $variant:ident = $text:literal,)* }) => {
        $(#[$about])*
        #[allow(non_camel_case_types)]
        #[derive(Clone, Debug, PartialEq, Eq, Hash)]
        pub enum $name {
            $($(#[$doc])* $variant,)*
            /// Another name.
            Other(String),
        }

        impl ::serde::Serialize for $name {
            fn serialize<S: ::serde::Serializer>(&self, serializer: S) -> ::std::result::Result<S::Ok, S::Error> {
                serializer.serialize_str(match self {
                    $($name::$variant => $text,)*
                    $name::Other(name) => name,
                })
            }
        }

        impl<'de> ::serde::Deserialize<'de> for $name {
            fn deserialize<D: ::serde::Deserializer<'de>>(deserializer: D) -> ::std::result::Result<Self, D::Error> {
                let name = String::deserialize(deserializer)?;
                Ok(match name.as_str() {
                    $($text => $name::$variant,)*
                    _ => $name::Other(name),
                })
            }
        }
    };
}
pub(crate) use names;

names! {
    /// The encryption of a payload (RFC 7518 section 5.1), which is only read here.
    Enc {
        /// AES-128-CBC with HMAC SHA-256.
        A128CBC_HS256 = "A128CBC-HS256",
        /// AES-192-CBC with HMAC SHA-384.
        A192CBC_HS384 = "A192CBC-HS384",
        /// AES-256-CBC with HMAC SHA-512.
        A256CBC_HS512 = "A256CBC-HS512",
        /// AES-128-GCM.
        A128GCM = "A128GCM",
        /// AES-192-GCM.
        A192GCM = "A192GCM",
        /// AES-256-GCM.
        A256GCM = "A256GCM",
    }
}

names! {
    /// The compression of a payload (RFC 7516 section 4.1.3), which is only read here.
    Zip {
        /// DEFLATE.
        Deflate = "DEF",
    }
}

/// Members of a header beyond those that [`Header`] names.
#[derive(Clone, Debug, Default, PartialEq, Eq)]
pub struct Extras {
    members: BTreeMap<String, Value>,
    /// Why the members can't be written.
    fault: Option<String>,
}

impl Extras {
    /// Returns the member of this name, if it is there.
    ///
    /// # Errors
    ///
    /// A member that is not of the type is [`ErrorKind::Json`](crate::errors::ErrorKind::Json).
    pub fn get<T>(&self, key: &str) -> Result<Option<T>>
    where
        T: DeserializeOwned,
    {
        Ok(self.members.get(key).map(T::deserialize).transpose()?)
    }

    /// Sets the member of this name. A value that can't be written makes signing fail, and so does a name whose field of [`Header`] is set.
    pub fn insert<T>(&mut self, key: impl Into<String>, value: T)
    where
        T: Serialize,
    {
        let key = key.into();
        match serde_json::to_value(value) {
            Ok(value) => drop(self.members.insert(key, value)),
            Err(error) => self.fault = Some(format!("{key} can't be written: {error}")),
        }
    }

    /// Returns all members.
    #[must_use]
    pub fn inner(&self) -> &BTreeMap<String, Value> {
        &self.members
    }
}

/// Hashes the names: values of JSON have no hash.
impl Hash for Extras {
    fn hash<H: Hasher>(&self, state: &mut H) {
        self.members.keys().for_each(|it| it.hash(state));
    }
}

impl Serialize for Extras {
    fn serialize<S: Serializer>(&self, serializer: S) -> std::result::Result<S::Ok, S::Error> {
        match &self.fault {
            Some(fault) => Err(S::Error::custom(fault)),
            None => self.members.serialize(serializer),
        }
    }
}

impl<'de> Deserialize<'de> for Extras {
    fn deserialize<D: Deserializer<'de>>(deserializer: D) -> std::result::Result<Self, D::Error> {
        Ok(Extras { members: BTreeMap::deserialize(deserializer)?, fault: None })
    }
}

/// The header of a token (RFC 7515 section 4.1).
///
/// ```
/// use jsonwebtoken_proved::{Algorithm, Header};
///
/// let header = Header { kid: Some("a".to_string()), ..Header::new(Algorithm::HS512) };
/// assert_eq!(header.typ.as_deref(), Some("JWT"));
/// ```
#[derive(Clone, Debug, Hash, PartialEq, Eq, Serialize, Deserialize)]
pub struct Header {
    /// The type of the token: `JWT` at first.
    #[serde(default, skip_serializing_if = "Option::is_none")]
    pub typ: Option<String>,
    /// The algorithm.
    pub alg: Algorithm,
    /// The type of the payload.
    #[serde(default, skip_serializing_if = "Option::is_none")]
    pub cty: Option<String>,
    /// The address of a set of keys. Nothing is fetched from it.
    #[serde(default, skip_serializing_if = "Option::is_none")]
    pub jku: Option<String>,
    /// A key. Nothing is verified by it.
    #[serde(default, skip_serializing_if = "Option::is_none")]
    pub jwk: Option<Jwk>,
    /// The id of the key.
    #[serde(default, skip_serializing_if = "Option::is_none")]
    pub kid: Option<String>,
    /// The address of certificates. Nothing is fetched from it.
    #[serde(default, skip_serializing_if = "Option::is_none")]
    pub x5u: Option<String>,
    /// Certificates, in base64 of their DER. Nothing is verified by them.
    #[serde(default, skip_serializing_if = "Option::is_none")]
    pub x5c: Option<Vec<String>>,
    /// The thumbprint of a certificate by SHA-1.
    #[serde(default, skip_serializing_if = "Option::is_none")]
    pub x5t: Option<String>,
    /// The thumbprint of a certificate by SHA-256.
    #[serde(default, skip_serializing_if = "Option::is_none", rename = "x5t#S256")]
    pub x5t_s256: Option<String>,
    /// The names of members that readers must understand (RFC 7515 section 4.1.11): [`understood_crit`](crate::Validation::understood_crit)
    /// lists those that are.
    #[serde(default, skip_serializing_if = "Option::is_none")]
    pub crit: Option<Vec<String>>,
    /// The encryption of the payload.
    #[serde(default, skip_serializing_if = "Option::is_none")]
    pub enc: Option<Enc>,
    /// The compression of the payload.
    #[serde(default, skip_serializing_if = "Option::is_none")]
    pub zip: Option<Zip>,
    /// The address that an ACME request is for (RFC 8555 section 6.4.1).
    #[serde(default, skip_serializing_if = "Option::is_none")]
    pub url: Option<String>,
    /// The nonce of an ACME request (RFC 8555 section 6.5.2).
    #[serde(default, skip_serializing_if = "Option::is_none")]
    pub nonce: Option<String>,
    /// All other members.
    #[serde(flatten)]
    pub extras: Extras,
}

impl Header {
    /// Returns the header of an algorithm, with the type `JWT`.
    #[must_use]
    pub fn new(algorithm: Algorithm) -> Self {
        Header {
            typ: Some("JWT".to_string()),
            alg: algorithm,
            cty: None,
            jku: None,
            jwk: None,
            kid: None,
            x5u: None,
            x5c: None,
            x5t: None,
            x5t_s256: None,
            crit: None,
            enc: None,
            zip: None,
            url: None,
            nonce: None,
            extras: Extras::default(),
        }
    }

    /// Returns the certificates of `x5c` in DER. Nothing is verified.
    ///
    /// # Errors
    ///
    /// A text that is not base64 is [`ErrorKind::Base64`](crate::errors::ErrorKind::Base64).
    pub fn x5c_der(&self) -> Result<Option<Vec<Vec<u8>>>> {
        let decoded = |it: &Vec<String>| it.iter().map(|it| base64::decode(it.as_bytes(), STANDARD)).collect();
        Ok(self.x5c.as_ref().map(decoded).transpose()?)
    }
}

/// The header of HS256.
impl Default for Header {
    fn default() -> Self {
        Header::new(Algorithm::default())
    }
}
