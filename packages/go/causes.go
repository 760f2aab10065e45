//go:build cgo && linux && amd64

package jwt

// #include <jwtproved.h>
import "C"

import "strconv"

// The functions here add to the text of an error what is at fault, for a log. The library has decided before.

// longestText is how many bytes of a text from the token an error shows.
const longestText = 100

// quoted returns a text that anyone can have written, in ASCII and not too long.
func quoted(text string) string {
	if len(text) > longestText {
		return strconv.QuoteToASCII(text[:longestText]) + ".."
	}
	return strconv.QuoteToASCII(text)
}

// tokenRefusal returns the refusal of a token, with what is at fault in it.
func (o *options) tokenRefusal(status C.enum_jwt_status, said C.struct_jwt_verdict, token string) *Error {
	refused := o.refusal(status, said)
	switch {
	case refused.kind == ErrMissingClaim:
		claims, _ := unverified(token, payloadPart)
		return refused.withCause(malformedClaim(status, claims))
	case status == C.JWT_NO_KEY && !refused.hasKid:
		return refused.withCause("the header has no kid")
	case status == C.JWT_NO_KEY:
		kid, _ := kidIn(token)
		return refused.withCause("the set has no usable key " + quoted(kid))
	case said.test == C.JWT_TEST_HEADER_IS_VALID:
		header, _ := unverified(token, headerPart)
		return refused.withCause(faultOfHeader(header))
	case status == C.JWT_JSON:
		return refused.withCause("the test " + refused.Test + " failed")
	}
	return refused
}

// withCause adds a cause to the text of an error, unless the cause is empty.
func (e *Error) withCause(cause string) *Error {
	if cause != "" {
		e.text += ": " + cause
	}
	return e
}

// malformedClaim returns the fault of a required claim whose value the library does not read, or "" if the claim is missing.
func malformedClaim(status C.enum_jwt_status, claims []byte) string {
	name := claimOf(status)
	if kindOf(status) != ErrMissingClaim || name == "" {
		return ""
	}
	switch _, found := member(claims, name); {
	case found == 0:
		return ""
	case name == "exp" || name == "nbf":
		return "it is there, but not a whole number of seconds"
	}
	return "it is there, but malformed"
}

// kidIn returns the kid of a token's header. Nothing is verified.
func kidIn(token string) (string, bool) {
	header, _ := unverified(token, headerPart)
	return stringOf(header, "kid")
}

// faultOfHeader returns what is at fault in a header that the library does not read.
func faultOfHeader(header []byte) string {
	switch alg, isText := stringOf(header, "alg"); {
	case !isText:
		return "the header is not an object with an alg that is a string"
	case numberOf(alg) == 0:
		return "the header's alg " + quoted(alg) + " is none of the twelve"
	}
	return "a header parameter is of another type than its name has, has a float, or is there twice"
}

// unsigned returns the error of a header or claims that the library does not sign.
func unsigned(err error, header []byte) error {
	switch {
	case isStatus(err, uint32(C.JWT_BAD_HEADER)):
		return optionError("%s", faultOfHeader(header))
	case isStatus(err, uint32(C.JWT_BAD_CLAIMS)):
		return optionError("the claims are not an object, have a name twice, or nest too deep")
	}
	return err
}
