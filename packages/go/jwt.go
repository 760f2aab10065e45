//go:build cgo && linux && amd64

// Package jwt verifies and issues JSON Web Tokens (RFC 7519) by a library whose contracts are proved, which pkg-config has to find
// (docs/INSTALL.md). It needs cgo, and Linux on x86-64.
//
//	key, err := jwt.ParseJWKSet(text)
//	verifier, err := jwt.NewVerifier(key, []string{"RS256"}, jwt.WithAudience("web"), jwt.WithIssuer("https://login.example"))
//	token, err := verifier.Parse(text)
//	if errors.Is(err, jwt.ErrExpired) { .. }
//	err = token.Claims(&claims)
//
// All twelve algorithms of RFC 7518 and RFC 8037 for HMAC, RSA, P-256, P-384 and Ed25519 are verified. A Signer issues tokens with a private
// key of the standard library or of a KMS, and Sign with a secret. Middleware guards handlers of net/http. Everything here may be used by
// any number of goroutines at once.
package jwt

import (
	"encoding/json"
	"errors"
	"fmt"
	"io"
	"strings"
)

// Token is a token that was verified.
type Token struct {
	// has is a pointer to a pointer, which no verb of fmt follows in a field that is not exported. There fmt does not call Format.
	has **content
}

// content has no signature, by which the token could be used again.
type content struct {
	header string
	claims []byte
}

// held is a Token with its content, for which one request for memory suffices.
type held struct {
	Token
	at   *content
	made content
}

// set has the token be that of a text, with these claims.
func (h *held) set(text string, claims []byte) *Token {
	h.made.header, _, _ = strings.Cut(text, ".")
	h.made.claims = claims
	h.at = &h.made
	h.has = &h.at
	return &h.Token
}

// content returns what a token has, or an error if Parse did not return it.
func (t *Token) content() (*content, error) {
	if t == nil || t.has == nil {
		return nil, optionError("Parse did not return this Token")
	}
	return *t.has, nil
}

// Format does not show the claims, whatever the verb.
func (Token) Format(state fmt.State, _ rune) { _, _ = io.WriteString(state, "jwt.Token([redacted])") }

// Header returns the members of its header.
// It reads them when it is called, since that takes nearly as long as to verify a token of 150 bytes with HS256.
func (t *Token) Header() (map[string]any, error) {
	has, err := t.content()
	if err != nil {
		return nil, err
	}
	return UnverifiedHeader(has.header + "..")
}

// Claims reads the claims into a value, as json.Unmarshal does, and then calls its method Validate, if it has one.
//
// Claims first sets the value to the zero value of its type, so a reused value has the claims of this token alone. Fields without a claim
// become zero too, and a new map replaces a map. If Claims returns an error, the value is zero.
//
// The error is ErrMalformedClaim if a claim is of another type than its field, with Error.Claim, ErrInvalidClaims if Validate returned an
// error, and ErrOption if the value is not one that claims are read into.
//
// json.Unmarshal matches names to the fields of a struct in any case, and with the other letters of Unicode's simple folding: without
// a further check it would read "SUB" or "\u017fub" as sub, which the library did not check. So Claims returns ErrMalformed, and reads
// nothing, if two claims have the same name but for folding, or if a claim has the name of exp, nbf, iat, aud, iss, sub or jti but for
// folding. The names of each nested object are compared with one another too, unless into points to a map of any or to an any that is
// nil: these keep every name as it is.
func (t *Token) Claims(into any) error {
	has, err := t.content()
	if err != nil {
		return err
	}
	return readClaims(has.claims, into)
}

// RawClaims returns the bytes of the claims as they were signed, if no object in them has a name twice: their order and the digits of their
// numbers stay. Otherwise it returns compact JSON with the members in the order of their names, and the last of each name (RFC 7519 section 4).
func (t *Token) RawClaims() json.RawMessage {
	has, err := t.content()
	if err != nil {
		return nil
	}
	return append(json.RawMessage(nil), has.claims...)
}

// Parse verifies a token with a key that accepts these algorithms. To verify several tokens, make a Verifier.
func Parse(token string, key Key, algorithms []string, opts ...Option) (*Token, error) {
	verifier, err := newVerifier(key, algorithms, opts, forOneToken)
	if err != nil {
		return nil, err
	}
	return verifier.Parse(token)
}

// UnverifiedHeader returns the header of a token of any algorithm, also if this package does not verify the algorithm. Nothing is verified:
// anyone can have written the header. The error is ErrMalformed if the header is not an object.
func UnverifiedHeader(token string) (map[string]any, error) {
	return readObject(unverified(token, headerPart))
}

// UnverifiedClaims returns the claims of a token of any algorithm, for example for a log. Nothing is verified: anyone can have written the
// claims. The error is ErrMalformed if the claims are not an object.
func UnverifiedClaims(token string) (map[string]any, error) {
	return readObject(unverified(token, payloadPart))
}

// readObject reads an object that the library wrote.
func readObject(object []byte, err error) (map[string]any, error) {
	if err != nil {
		return nil, err
	}
	var read map[string]any
	if err := json.Unmarshal(object, &read); err != nil {
		return nil, fmt.Errorf("%w: %v", ErrMalformed, err)
	}
	return read, nil
}

// CheckClaims checks the claims of a JSON object without a token, with the rules that Parse has for claims. Use it for the RawClaims of a
// token that began a long connection, or for claims that a gateway passes on. CheckClaims verifies no signature. The error is ErrMalformed if
// the claims are not a JSON object; other errors are as from Parse.
func CheckClaims(claims []byte, opts ...Option) error {
	asked, err := conditions(nil, opts)
	if err != nil {
		return err
	}
	now, err := asked.moment()
	if err != nil {
		return err
	}
	return checkClaims(claims, asked, now)
}

// Signature is the signature of a token that is checked or made elsewhere, such as by other cryptography, a KMS or an HSM.
type Signature struct {
	// Algorithm is the name of its algorithm, such as "ES256".
	Algorithm string
	// Message has the bytes that are signed.
	Message []byte
	// Bytes are those of the signature: with ES256 and ES384 two numbers one after the other (RFC 7518 section 3.4).
	Bytes []byte
}

// ParseByVerdict verifies a token whose signature was checked elsewhere: isGenuine says whether this is a signature of its message with
// its algorithm and the key that the caller trusts. All else is verified as a Verifier does. The error is ErrSignature if isGenuine is
// false, or if message or signature are not those of the token, and ErrAlgorithm if the algorithm is not. All algorithms must be of one
// family: otherwise each token is ErrAlgorithm.
func ParseByVerdict(token string, checked Signature, isGenuine bool, algorithms []string, opts ...Option) (*Token, error) {
	asked, err := listed(algorithms, opts)
	if err != nil {
		return nil, err
	}
	now, err := asked.moment()
	if err != nil {
		return nil, err
	}
	claims, err := decodeVerdict(token, checked, isGenuine, asked, now)
	if errors.Is(err, ErrOption) {
		return nil, unknownAlgorithm(algorithms)
	}
	if err != nil {
		return nil, err
	}
	return (&held{}).set(token, claims), nil
}

// unknownAlgorithm names the first algorithm that the library does not know.
func unknownAlgorithm(algorithms []string) error {
	for _, it := range algorithms {
		if numberOf(it) == 0 {
			return optionError("algorithms has %s, which is none of the twelve", quoted(it))
		}
	}
	return optionError("algorithms has %q", algorithms)
}
