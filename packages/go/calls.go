//go:build cgo && linux && amd64

package jwt

// #include <jwtproved.h>
import "C"

// member returns the text of a member of a JSON object, and its type, or 0 if there is none of this name, which JSON writes as it is.
func member(object []byte, name string) ([]byte, C.uint32_t) {
	var found C.uint32_t
	value, _ := fill(len(object), func(to view, length *C.size_t) C.enum_jwt_status {
		object, path := viewOf(object), viewOf([]byte(`["`+name+`"]`))
		return C.jwt_member(object.chars, object.len, path.chars, path.len, &found, to.chars, to.len, length)
	})
	return value, found
}

// stringOf returns a member that is a string.
func stringOf(object []byte, name string) (string, bool) {
	value, found := member(object, name)
	return string(value), found == C.JWT_STRING
}

// numberOf returns the number of the algorithm with this name, or 0 for an unknown name.
func numberOf(algorithm string) C.uint32_t {
	name := viewOf([]byte(algorithm))
	return C.jwt_algorithm(name.chars, name.len)
}

// The parts of a token that unverified reads.
const (
	headerPart  C.uint32_t = C.JWT_HEADER
	payloadPart C.uint32_t = C.JWT_PAYLOAD
)

// unverified returns a part of a token of any algorithm as JSON, if it is an object. Nothing is verified.
func unverified(token string, part C.uint32_t) ([]byte, error) {
	return answer(len(token), func(to view, length *C.size_t) C.enum_jwt_status {
		text := viewOf([]byte(token))
		return C.jwt_unverified(text.chars, text.len, part, to.chars, to.len, length)
	})
}

// UnverifiedSignature returns the signature of a token, to be checked elsewhere. Nothing is verified, and the algorithm is the one that
// the token itself names: check the signature with the one that your key is for, and with that key.
func UnverifiedSignature(token string) (Signature, error) {
	var number C.uint32_t
	var message C.size_t
	signature, err := answer(len(token), func(to view, length *C.size_t) C.enum_jwt_status {
		text := viewOf([]byte(token))
		return C.jwt_signed_part(text.chars, text.len, &number, &message, to.octets, to.len, length)
	})
	if err != nil {
		return Signature{}, err
	}
	return Signature{textOf(C.JWT_OF_ALGORITHM, number), []byte(token[:message]), signature}, nil
}

// checkClaims returns an error if the claims break a rule of the conditions.
func checkClaims(claims []byte, asked *options, now uint64) error {
	var said C.struct_jwt_verdict
	object, text := viewOf(claims), viewOf(asked.text)
	status := C.jwt_check_claims(object.chars, object.len, text.chars, text.len, C.uint64_t(now), &said.claim)
	switch status {
	case C.JWT_OK:
		return nil
	case C.JWT_BAD_CLAIMS:
		return &Error{Status: uint32(status), kind: ErrMalformed, text: statusText(status)}
	}
	return asked.refusal(status, said).withCause(malformedClaim(status, claims))
}

// decodeVerdict has a token verified, of which a signature was checked.
func decodeVerdict(token string, checked Signature, isGenuine bool, asked *options, now uint64) ([]byte, error) {
	var said C.struct_jwt_verdict
	number := numberOf(checked.Algorithm)
	claims, status := fill(len(token), func(to view, length *C.size_t) C.enum_jwt_status {
		from, message, signature, text := viewOf([]byte(token)), viewOf(checked.Message), viewOf(checked.Bytes), viewOf(asked.text)
		return C.jwt_decode_verdict(from.chars, from.len, number, message.octets, message.len, signature.octets, signature.len, C.bool(isGenuine),
			text.chars, text.len, C.uint64_t(now), &said.claim, to.chars, to.len, length)
	})
	if status != C.JWT_OK {
		return nil, asked.refusal(status, said)
	}
	return claims, nil
}

// signingInput returns the message of a token that has to be signed.
func signingInput(header, claims []byte) ([]byte, error) {
	var number C.uint32_t
	return answer(2*(len(header)+len(claims)), func(to view, length *C.size_t) C.enum_jwt_status {
		header, claims := viewOf(header), viewOf(claims)
		return C.jwt_signing_input(header.chars, header.len, claims.chars, claims.len, &number, to.octets, to.len, length)
	})
}

// ECDSASignature returns a signature with ES256 or ES384 in the form of a token, from one in DER, which crypto/ecdsa and a KMS make. Other
// bytes are ErrSignature.
func ECDSASignature(der []byte, algorithm string) ([]byte, error) {
	number := numberOf(algorithm)
	return answer(len(der)+96, func(to view, length *C.size_t) C.enum_jwt_status {
		from := viewOf(der)
		return C.jwt_ecdsa_signature(from.octets, from.len, number, to.octets, to.len, length)
	})
}
