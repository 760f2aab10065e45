//! Private keys, and signatures by OpenSSL, if the feature `openssl` is on.

#[cfg(feature = "openssl")]
pub use by_openssl::PrivateKey;
#[cfg(not(feature = "openssl"))]
pub use missing::PrivateKey;

#[cfg(not(feature = "openssl"))]
mod missing {
    use crate::errors::{ErrorKind, Result};
    use crate::{Algorithm, AlgorithmFamily, DecodingKey};

    /// Without the feature no private key is read.
    pub enum PrivateKey {}

    impl PrivateKey {
        pub fn new(_: AlgorithmFamily, _: &[u8]) -> Result<PrivateKey> {
            let why = "all but HMAC of tokens needs the feature openssl, or a Signer of yours";
            Err(ErrorKind::Provider(why.to_string()).into())
        }

        pub fn sign(&self, _: Algorithm, _: &[u8]) -> Result<Vec<u8>> {
            match *self {}
        }

        pub fn public(&self) -> &DecodingKey {
            match *self {}
        }
    }
}

#[cfg(feature = "openssl")]
mod by_openssl {
    use crate::errors::{Error, ErrorKind, Result};
    use crate::{Algorithm, AlgorithmFamily, DecodingKey, ecdsa_signature};
    use openssl::bn::BigNumContext;
    use openssl::ec::PointConversionForm;
    use openssl::error::ErrorStack;
    use openssl::hash::MessageDigest;
    use openssl::pkey::{Id, PKey, Private};
    use openssl::rsa::Padding;
    use openssl::sign::{RsaPssSaltlen, Signer};

    /// A private key, or a secret, as OpenSSL has read it, and the key that verifies what it signs.
    pub struct PrivateKey {
        key: PKey<Private>,
        public: DecodingKey,
    }

    impl PrivateKey {
        /// Reads the DER of a key of this family, or a secret.
        pub fn new(family: AlgorithmFamily, bytes: &[u8]) -> Result<PrivateKey> {
            let (id, key) = match family {
                AlgorithmFamily::Ed => (Id::ED25519, PKey::private_key_from_raw_bytes(seed(bytes), Id::ED25519)),
                AlgorithmFamily::Ec => (Id::EC, PKey::private_key_from_der(bytes)),
                AlgorithmFamily::Rsa => (Id::RSA, PKey::private_key_from_der(bytes)),
                AlgorithmFamily::Hmac => (Id::HMAC, PKey::hmac(bytes)),
            };
            let key = key.ok().filter(|it| it.id() == id).ok_or(ErrorKind::InvalidKeyFormat)?;
            let public = match family {
                AlgorithmFamily::Hmac => DecodingKey::from_secret(bytes),
                _ => public_of(&key).map_err(failed)?,
            };
            Ok(PrivateKey { key, public })
        }

        /// Returns a signature as a token has it, which is yet to be verified.
        pub fn sign(&self, algorithm: Algorithm, message: &[u8]) -> Result<Vec<u8>> {
            let made = signed(&self.key, algorithm, message).map_err(failed)?;
            if algorithm.family() != AlgorithmFamily::Ec {
                return Ok(made);
            }
            // its numbers are too long if the key is on another curve
            ecdsa_signature(&made, algorithm).map_err(|_| ErrorKind::InvalidEcdsaKey.into())
        }

        /// Returns the public half, or the secret.
        pub fn public(&self) -> &DecodingKey {
            &self.public
        }
    }

    /// Returns the 32 bytes of a private key of Ed25519 in PKCS #8 (RFC 8410 section 7), or none.
    fn seed(der: &[u8]) -> &[u8] {
        const VERSION: usize = 4;
        const ALGORITHM: &[u8] = b"\x30\x05\x06\x03\x2b\x65\x70\x04\x22\x04\x20";
        let after = der.get(VERSION + 1..).and_then(|it| it.strip_prefix(ALGORITHM));
        after.and_then(|it| it.get(..32)).unwrap_or_default()
    }

    #[allow(clippy::needless_pass_by_value)] // for map_err
    fn failed(error: ErrorStack) -> Error {
        ErrorKind::Signing(error.to_string()).into()
    }

    fn digest(algorithm: Algorithm) -> MessageDigest {
        match algorithm {
            Algorithm::HS384 | Algorithm::RS384 | Algorithm::PS384 | Algorithm::ES384 => MessageDigest::sha384(),
            Algorithm::HS512 | Algorithm::RS512 | Algorithm::PS512 => MessageDigest::sha512(),
            _ => MessageDigest::sha256(),
        }
    }

    fn signed(key: &PKey<Private>, algorithm: Algorithm, message: &[u8]) -> std::result::Result<Vec<u8>, ErrorStack> {
        if algorithm.family() == AlgorithmFamily::Ed {
            return Signer::new_without_digest(key)?.sign_oneshot_to_vec(message);
        }
        let mut signer = Signer::new(digest(algorithm), key)?;
        if matches!(algorithm, Algorithm::PS256 | Algorithm::PS384 | Algorithm::PS512) {
            signer.set_rsa_padding(Padding::PKCS1_PSS)?;
            signer.set_rsa_pss_saltlen(RsaPssSaltlen::DIGEST_LENGTH)?;
        }
        signer.sign_oneshot_to_vec(message)
    }

    fn public_of(key: &PKey<Private>) -> std::result::Result<DecodingKey, ErrorStack> {
        if let Ok(rsa) = key.rsa() {
            return Ok(DecodingKey::from_rsa_raw_components(&rsa.n().to_vec(), &rsa.e().to_vec()));
        }
        if let Ok(key) = key.ec_key() {
            let (form, mut context) = (PointConversionForm::UNCOMPRESSED, BigNumContext::new()?);
            return Ok(DecodingKey::from_ec_der(&key.public_key().to_bytes(key.group(), form, &mut context)?));
        }
        Ok(DecodingKey::from_ed_der(&key.raw_public_key()?))
    }
}
