//go:build cgo && linux && amd64

package jwt

import (
	"crypto"
	"crypto/x509"
	"fmt"
	"io"
	"math"
)

// Key is a verification key: a secret, a public key or a key set. Its kind decides the algorithms. The library reads it once.
type Key struct {
	// keys returns what the library has read. In a field that is not exported fmt does not call Format; of a func it shows the address alone.
	keys func() *keys
	// set returns the key set that the keys are of, if it is fetched again as its keys rotate.
	set func() *KeySet
}

// newKey returns a key that stays as it was read.
func newKey(read *keys, err error) (Key, error) {
	if err == nil {
		err = read.usable()
	}
	if err != nil {
		return Key{}, err
	}
	return Key{keys: func() *keys { return read }}, nil
}

// Format does not show the key, whatever the verb.
func (k Key) Format(state fmt.State, verb rune) {
	text := k.String()
	if verb == 'v' && state.Flag('#') {
		text = "jwt.Key(" + text + ")"
	}
	_, _ = io.WriteString(state, text)
}

// String does not show the key.
func (Key) String() string { return "[redacted]" }

// Skipped returns the items of a key set that are not used, in their order, for a log. It returns none for another key.
func (k Key) Skipped() []SkippedKey {
	if k.keys == nil {
		return nil
	}
	return k.keys().skipped(math.MaxInt)
}

// SkippedKey is an item of a key set that is not used, as if it were not in the set (RFC 7517 section 5).
type SkippedKey struct {
	// Place is the index of the item in "keys", from 0 on.
	Place int
	// KeyID is its kid, or empty without a kid.
	KeyID string
	// Status is the number of the reason in jwtproved.h, and Reason the library's text of it.
	Status uint32
	Reason string
}

// String returns the place, the kid and the reason, for a log.
func (s SkippedKey) String() string {
	if s.KeyID == "" {
		return fmt.Sprintf("key %d is skipped: %s", s.Place, s.Reason)
	}
	return fmt.Sprintf("key %d, with the kid %s, is skipped: %s", s.Place, quoted(s.KeyID), s.Reason)
}

// NewSecretKey returns a secret as a key, for HS256, HS384 and HS512. RFC 7518 section 3.2 requires at least 32, 48 and 64 bytes. A secret
// that anyone may have is refused: one that is empty or has zeros alone, a key of SSH, in PEM, in DER, or in JSON, and base64 of these.
func NewSecretKey(secret []byte) (Key, error) { return newKey(readKeys(fromSecret, secret)) }

// ParseJWK returns a JSON Web Key (RFC 7517 section 4) of any kind as a key. One that verifies no tokens is refused, such as a key whose use is
// not sig, and so is a secret that NewSecretKey refuses. A key with an alg verifies with that algorithm alone.
//
// ParseJWK and ParsePEM read the same texts: the text decides whether it is a key, a key set or a file. ParseJWKSet reads a key set alone.
func ParseJWK(text []byte) (Key, error) { return newKey(readKeys(fromText, text)) }

// ParseJWKSet returns a JSON Web Key Set (RFC 7517 section 5) as a key. A token names one of its keys by its kid. An item that ParseJWK refuses
// is skipped, as if it were not in the set: Skipped lists these items. If no usable key has a kid, the error is ErrKey, with the
// reasons. A text that is not a set is ErrKey too, such as one key, which ParseJWK reads.
func ParseJWKSet(text []byte) (Key, error) { return newKey(readKeys(fromSet, text)) }

// ParsePEM returns a public key of RSA, P-256, P-384 or Ed25519 in PEM as a key, in the strict form of RFC 7468 section 3: that of the
// first block of a text.
func ParsePEM(text []byte) (Key, error) { return newKey(readKeys(fromText, text)) }

// NewPublicKey returns a public key of RSA, P-256, P-384 or Ed25519 as a key.
func NewPublicKey(public crypto.PublicKey) (Key, error) { return newKey(readPublic(public)) }

// readPublic has the library read the SubjectPublicKeyInfo of a public key.
func readPublic(public crypto.PublicKey) (read *keys, err error) {
	defer recovered(public, &err)
	der, err := x509.MarshalPKIXPublicKey(public)
	if err != nil {
		return nil, keyError("%v", err)
	}
	return readKeys(fromText, der)
}

// recovered sets the error of a key for which the standard library panics.
func recovered(key any, err *error) {
	if why := recover(); why != nil {
		*err = keyError("the %T is nil, not complete, or not on its curve", key)
	}
}

// Thumbprint returns the thumbprint (RFC 7638) of a JSON Web Key, with SHA-2 of 256, 384 or 512 bits. Another number is ErrAlgorithm, and a key
// that ParseJWK refuses is ErrKey. A set of one key has the thumbprint of this key, also if it is skipped.
func Thumbprint(jwk []byte, bits uint32) (string, error) {
	read, err := readKeys(fromText, jwk)
	if err != nil {
		return "", err
	}
	defer read.free()
	if read.items != 1 {
		return "", keyError("the text has %d keys: a thumbprint is that of one", read.items)
	}
	text, err := read.thumbprint(bits)
	return string(text), err
}
