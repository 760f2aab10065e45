//go:build cgo && linux && amd64

package jwt

// #include <jwtproved.h>
import "C"

import (
	"errors"
	"fmt"
)

// The kinds of refusals: errors.Is(err, jwt.ErrExpired) tells one from the others. Each but the last three is about the token.
var (
	// ErrMalformed is a token, a header or a payload that can't be read, or claims whose names differ by folding alone (Claims).
	ErrMalformed = errors.New("jwt: the token is malformed")
	// ErrSignature is a signature that is not that of the token by the key.
	ErrSignature = errors.New("jwt: the signature is wrong")
	// ErrAlgorithm is an algorithm that is not among those accepted.
	ErrAlgorithm = errors.New("jwt: the algorithm is not accepted")
	// ErrCrit is a crit that names a member which is not understood.
	ErrCrit = errors.New("jwt: crit is not understood")
	// ErrUnknownKey is a header that names no usable key of the set.
	ErrUnknownKey = errors.New("jwt: no matching key in the key set")
	// ErrExpired is an exp that is not after now, less the leeway.
	ErrExpired = errors.New("jwt: the token has expired")
	// ErrNotYetValid is an nbf that is after now and the leeway, or by WithIssuedAt an iat that is; then Error.Claim is iat.
	ErrNotYetValid = errors.New("jwt: the token is not valid yet")
	// ErrAudience is an aud without an accepted audience.
	ErrAudience = errors.New("jwt: the audience is not accepted")
	// ErrIssuer is an iss without an accepted issuer.
	ErrIssuer = errors.New("jwt: the issuer is not accepted")
	// ErrSubject is another subject.
	ErrSubject = errors.New("jwt: the subject is not accepted")
	// ErrMissingClaim is a claim that is required, and missing or malformed. Error.Claim is its name.
	ErrMissingClaim = errors.New("jwt: a required claim is missing or malformed")
	// ErrMalformedClaim is a claim that is checked and malformed. Error.Claim is its name.
	ErrMalformedClaim = errors.New("jwt: a claim is malformed")
	// ErrKey is a key that can't be read, that fits no listed algorithm, or that lets others sign.
	ErrKey = errors.New("jwt: unusable key")
	// ErrOption is an option, a header or claims that are not understood.
	ErrOption = errors.New("jwt: invalid argument")
	// ErrOutOfMemory means that the verification did not finish.
	ErrOutOfMemory = errors.New("jwt: out of memory")
)

// Error is a refusal by the library. Log it, and tell the sender of a refused token no more than its kind.
type Error struct {
	// Status is its number in jwtproved.h. It is 0 if the library accepted the token, and a claim is not of the type of its field.
	Status uint32
	// Test is the name of the first test of the token that failed, such as SignatureIsAccepted, which docs/RULES.md explains, and
	// TestNumber its number in jwtproved.h. They are empty and 0 if Parse did not refuse a token by one.
	Test       string
	TestNumber uint32
	// Claim is the name of the claim that ErrMissingClaim or ErrMalformedClaim is about, such as exp, or iat for ErrNotYetValid by
	// WithIssuedAt. Otherwise it is empty. That of a claim in an object is its path, such as realm.roles.
	Claim  string
	kind   error
	text   string
	hasKid bool // with ErrUnknownKey: the header has a kid
}

// Error returns the library's text of the refusal, such as "jwt: ExpiredSignature".
func (e *Error) Error() string { return "jwt: " + e.text }

// Unwrap returns the kind of the refusal, such as ErrExpired.
func (e *Error) Unwrap() error { return e.kind }

// joinedError is an error of a kind that wraps another one: errors.Is and errors.As see both.
type joinedError struct {
	kind, other error
	text        string
}

func (e *joinedError) Error() string { return e.text }

func (e *joinedError) Is(kind error) bool { return kind == e.kind }

func (e *joinedError) Unwrap() error { return e.other }

func optionError(why string, arguments ...any) error {
	return fmt.Errorf("%w: %s", ErrOption, fmt.Sprintf(why, arguments...))
}

func keyError(why string, arguments ...any) error {
	return fmt.Errorf("%w: %s", ErrKey, fmt.Sprintf(why, arguments...))
}

const noUsableKey = uint32(C.JWT_NO_USABLE_KEY)

// isStatus returns whether an error is the refusal of this number.
func isStatus(err error, status uint32) bool {
	var refused *Error
	return errors.As(err, &refused) && refused.Status == status
}

// refusal returns the error of a status, with the test of the token that failed, or 0.
func refusal(status C.enum_jwt_status, test C.uint32_t) *Error {
	return &Error{
		Status: uint32(status), Test: textOf(C.JWT_OF_TEST, test), TestNumber: uint32(test), Claim: claimOf(status), kind: kindOf(status),
		text: statusText(status),
	}
}

// refusal returns the error of a token or claims that the library refused by these conditions, with the name of the claim.
func (o *options) refusal(status C.enum_jwt_status, said C.struct_jwt_verdict) *Error {
	refused := refusal(status, said.test)
	refused.hasKid = said.has_kid == 1
	if name := o.claimAt(status, said); name != "" {
		refused.Claim = name
		refused.text += ": " + name
	}
	return refused
}

// claimAt returns the name of the claim that a verdict is about, if its status does not have the name.
func (o *options) claimAt(status C.enum_jwt_status, said C.struct_jwt_verdict) string {
	names := o.Texts
	if status == C.JWT_MISSING_CLAIM {
		names = o.Further
	}
	switch place := said.claim; {
	case place == C.JWT_CLAIM_IAT:
		return "iat"
	case place >= 1 && int(place) <= len(names):
		return names[place-1]
	}
	return ""
}

// keyRefusal returns the error of a key that the library refuses with this status, and what to give instead.
func keyRefusal(status C.enum_jwt_status) *Error {
	why := statusText(status)
	switch status {
	case C.JWT_OUT_OF_MEMORY:
		return refusal(status, 0)
	case C.JWT_BAD_KEY:
		why += ": ParseJWKSet reads a key set, ParseJWK one key, ParsePEM a key in PEM, and NewSecretKey any secret"
	case C.JWT_KEY_AS_SECRET:
		why += ": of SSH, in PEM, in DER, a JSON Web Key or a key set"
	case C.JWT_NO_USABLE_KEY:
		why += ": a key with an alg verifies with that algorithm alone, and a key of a set needs a kid"
	case C.JWT_PROVIDER:
		why = "it is a private key, and tokens are verified with the public key"
	case C.JWT_IS_CERTIFICATE:
		why = "it is a certificate: x509.ParseCertificate reads it, and NewPublicKey takes its PublicKey"
	}
	return &Error{Status: uint32(status), kind: ErrKey, text: "unusable key: " + why}
}

// registeredClaims has the claims with statuses of their own, in the order of these.
var registeredClaims = []string{"exp", "nbf", "aud", "iss", "sub"}

// claimOf returns the name of the claim that a status is about, or "".
func claimOf(status C.enum_jwt_status) string {
	for _, first := range []C.enum_jwt_status{C.JWT_MISSING_EXP, C.JWT_MALFORMED_EXP} {
		if status >= first && int(status-first) < len(registeredClaims) {
			return registeredClaims[status-first]
		}
	}
	return ""
}

// kindsOf has the kinds of the statuses, but for those of claims and arguments. Each other one is ErrMalformed.
var kindsOf = map[C.enum_jwt_status]error{
	C.JWT_INVALID_SIGNATURE: ErrSignature, C.JWT_INVALID_CRIT: ErrCrit, C.JWT_NO_KEY: ErrUnknownKey, C.JWT_OUT_OF_MEMORY: ErrOutOfMemory,
	C.JWT_INVALID_ALGORITHM: ErrAlgorithm, C.JWT_MISSING_ALGORITHM: ErrAlgorithm, C.JWT_INVALID_ALGORITHM_NAME: ErrAlgorithm,
	C.JWT_EXPIRED_SIGNATURE: ErrExpired, C.JWT_IMMATURE_SIGNATURE: ErrNotYetValid, C.JWT_INVALID_AUDIENCE: ErrAudience,
	C.JWT_INVALID_ISSUER: ErrIssuer, C.JWT_INVALID_SUBJECT: ErrSubject, C.JWT_TOKEN_TOO_LONG: ErrMalformed,
	C.JWT_UNSUPPORTED_ALGORITHM: ErrKey, C.JWT_INVALID_KEY_FORMAT: ErrKey, C.JWT_SIGNING: ErrOption, C.JWT_CLOCK_BEFORE_EPOCH: ErrOption,
}

func kindOf(status C.enum_jwt_status) error {
	kind, is := kindsOf[status]
	switch {
	case is:
		return kind
	case status >= C.JWT_MISSING_EXP && status <= C.JWT_MISSING_CLAIM:
		return ErrMissingClaim
	case status >= C.JWT_MALFORMED_EXP && status <= C.JWT_MALFORMED_CLAIM:
		return ErrMalformedClaim
	case status >= C.JWT_BAD_OPTIONS:
		return ErrOption
	}
	return ErrMalformed
}
