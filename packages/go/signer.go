//go:build cgo && linux && amd64

package jwt

import (
	"crypto"
	"crypto/ecdsa"
	"crypto/rand"
	"crypto/rsa"
	_ "crypto/sha256" // the digests that are signed
	_ "crypto/sha512"
	"crypto/x509"
	"encoding/json"
	"encoding/pem"
	"errors"
	"fmt"
	"io"
)

// ErrSigning is a private key that did not sign, or a signature of it that its own public key does not verify. It wraps the key's error.
var ErrSigning = errors.New("jwt: signing failed")

func signingError(cause error) error {
	return &joinedError{ErrSigning, cause, ErrSigning.Error() + ": " + cause.Error()}
}

// signatureForms has what a key is asked for with each algorithm (RFC 7518 sections 3.3 to 3.5, RFC 8037 section 3.1): a signature of the
// message's digest, or of the message itself if there is no hash function.
var signatureForms = map[string]crypto.SignerOpts{
	"RS256": crypto.SHA256, "RS384": crypto.SHA384, "RS512": crypto.SHA512,
	"PS256": saltedAs(crypto.SHA256), "PS384": saltedAs(crypto.SHA384), "PS512": saltedAs(crypto.SHA512),
	"ES256": crypto.SHA256, "ES384": crypto.SHA384,
	"EdDSA": crypto.Hash(0),
}

// saltedAs returns the form of RSASSA-PSS whose salt is as long as the digest.
func saltedAs(hash crypto.Hash) crypto.SignerOpts {
	return &rsa.PSSOptions{SaltLength: rsa.PSSSaltLengthEqualsHash, Hash: hash}
}

// Signer issues tokens with one private key and one algorithm.
type Signer struct{ made *signing }

type signing struct {
	key       func() crypto.Signer // fmt shows the address of a func alone
	algorithm string
	form      crypto.SignerOpts
	isDER     bool // a crypto.Signer with a key on a curve of ECDSA returns DER
	header    []byte
	jwk       []byte
	verifying *handles
}

// Format does not show the key, whatever the verb.
func (Signer) Format(state fmt.State, _ rune) { _, _ = io.WriteString(state, "jwt.Signer([redacted])") }

// SignerOption sets a member of the header of the tokens that a Signer issues. Each member may be set once.
type SignerOption func(members map[string]any) error

// WithKeyID names the key by this kid, which may not be empty, so that those who have its set of keys find it.
func WithKeyID(kid string) SignerOption {
	return func(members map[string]any) error {
		if err := checkTexts("WithKeyID", kid); err != nil {
			return err
		}
		return WithHeader("kid", kid)(members)
	}
}

// WithHeader sets any member of the header, which json.Marshal writes, such as typ. Another alg than the Signer's is ErrOption.
func WithHeader(name string, value any) SignerOption {
	return func(members map[string]any) error {
		if err := checkTexts("WithHeader", name); err != nil {
			return err
		}
		if _, isThere := members[name]; isThere {
			return optionError("the options set the header's %s twice: %s", quoted(name), leaveOneOut)
		}
		members[name] = value
		return nil
	}
}

// NewSigner returns a signer with a private key of RSA, P-256, P-384 or Ed25519 and an algorithm of it: RS256 to RS512 and PS256 to PS512,
// ES256, ES384 or EdDSA. A crypto.Signer is a key of the standard library (ParsePrivatePEM reads one), or one that a KMS or an HSM keeps; it
// has to serve several goroutines at once if the Signer does. A key that is nil or not complete, that is of another kind or curve, or an RSA
// key of less than 2048 bits is ErrKey. Sign returns ErrOption if a header parameter is of another type than its name has.
func NewSigner(key crypto.Signer, algorithm string, opts ...SignerOption) (*Signer, error) {
	members := map[string]any{}
	if err := apply(members, opts); err != nil {
		return nil, err
	}
	header, err := headerText(algorithm, members)
	if err != nil {
		return nil, err
	}
	form, is := signatureForms[algorithm]
	switch {
	case numberOf(algorithm) == 0:
		return nil, optionError("the algorithm %s is none of the twelve", quoted(algorithm))
	case !is:
		return nil, keyError("%s is no algorithm of a private key", algorithm)
	}
	public, err := publicOf(key)
	if err != nil {
		return nil, err
	}
	read, err := readPublic(public)
	if err != nil {
		return nil, err
	}
	jwk, err := read.textAt(0)
	if err != nil {
		return nil, err
	}
	verifying := newHandles(nil, read, []byte(`{"algorithms":["`+algorithm+`"]}`), forManyTokens)
	if verifying.err != nil {
		return nil, fmt.Errorf("%w: %q", verifying.err, algorithm)
	}
	_, isDER := public.(*ecdsa.PublicKey)
	return &Signer{&signing{func() crypto.Signer { return key }, algorithm, form, isDER, header, jwk, verifying}}, nil
}

// publicOf returns the public key of a private key that can sign.
func publicOf(key crypto.Signer) (public crypto.PublicKey, err error) {
	defer recovered(key, &err)
	isComplete := true
	switch it := key.(type) {
	case nil:
		return nil, keyError("there is none")
	case *rsa.PrivateKey:
		isComplete = it.D.Sign() > 0 && (len(it.Primes) == 0 || it.Validate() == nil)
	case *ecdsa.PrivateKey:
		isComplete = it.D.Sign() > 0
	}
	if !isComplete {
		return nil, keyError("the %T is not complete, or its parts do not belong together", key)
	}
	return key.Public(), nil
}

// Sign returns the token of claims, which are as for the function Sign. The library verifies the signature with the public key before the
// token is returned. If the key can't sign, or its signature is wrong, the error is ErrSigning. Claims that can't be written are ErrOption.
func (s *Signer) Sign(claims any) (string, error) {
	if s == nil || s.made == nil {
		return "", optionError("NewSigner did not make this Signer")
	}
	text, err := claimsText(claims)
	if err != nil {
		return "", err
	}
	message, err := signingInput(s.made.header, text)
	if err != nil {
		return "", unsigned(err, s.made.header)
	}
	signature, err := s.made.sign(message)
	if err != nil {
		return "", signingError(err)
	}
	token, err := s.made.verifying.attach(message, signature)
	if err != nil {
		return "", signingError(err)
	}
	return token, nil
}

// sign returns the signature of a message in the form of a token.
func (s *signing) sign(message []byte) ([]byte, error) {
	if hash := s.form.HashFunc(); hash != 0 {
		digest := hash.New()
		digest.Write(message)
		message = digest.Sum(nil)
	}
	signature, err := s.key().Sign(rand.Reader, message, s.form)
	if err != nil || !s.isDER {
		return signature, err
	}
	return ECDSASignature(signature, s.algorithm)
}

// JWK returns the JSON Web Key of the public key, with its alg and the kid of WithKeyID: an element of "keys" in the set that the issuer
// publishes (RFC 7517 section 5).
func (s *Signer) JWK() (json.RawMessage, error) {
	if s == nil || s.made == nil {
		return nil, optionError("NewSigner did not make this Signer")
	}
	var members, header map[string]any
	if err := json.Unmarshal(s.made.jwk, &members); err != nil {
		return nil, keyError("%v", err)
	}
	if err := json.Unmarshal(s.made.header, &header); err != nil {
		return nil, optionError("%v", err)
	}
	members["alg"], members["use"] = s.made.algorithm, "sig"
	if kid, is := header["kid"]; is {
		members["kid"] = kid
	}
	return json.Marshal(members)
}

// ParsePrivatePEM returns the private key of the first block of a text in PEM, for NewSigner: PKCS #8 (PRIVATE KEY), PKCS #1 (RSA PRIVATE
// KEY) or SEC 1 (EC PRIVATE KEY), as the standard library reads it. One that is encrypted, and any other text, is ErrKey.
func ParsePrivatePEM(text []byte) (crypto.Signer, error) {
	block, rest := pem.Decode(text)
	if block != nil && block.Type == "EC PARAMETERS" { // before an EC PRIVATE KEY, which names its curve too
		block, _ = pem.Decode(rest)
	}
	if block == nil {
		return nil, keyError("the text has no block in PEM")
	}
	key, err := privateKey(block)
	if err != nil {
		return nil, keyError("%v", err)
	}
	made, is := key.(crypto.Signer)
	if !is {
		return nil, keyError("a %T does not sign", key)
	}
	return made, nil
}

func privateKey(block *pem.Block) (any, error) {
	if block.Type == "ENCRYPTED PRIVATE KEY" || block.Headers["DEK-Info"] != "" {
		return nil, errors.New("the private key is encrypted")
	}
	switch block.Type {
	case "PRIVATE KEY":
		return x509.ParsePKCS8PrivateKey(block.Bytes)
	case "RSA PRIVATE KEY":
		return x509.ParsePKCS1PrivateKey(block.Bytes)
	case "EC PRIVATE KEY":
		return x509.ParseECPrivateKey(block.Bytes)
	}
	return nil, fmt.Errorf("the block is of a %s, and not of a private key", block.Type)
}
