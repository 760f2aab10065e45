//go:build cgo && linux && amd64

package jwt

import (
	"bytes"
	"encoding/json"
	"reflect"
	"strconv"
	"strings"
	"time"
	"unicode/utf8"
)

// Sign returns the token of claims, signed with a secret, with HS256, HS384 or HS512. What json.Marshal writes of the claims is signed byte for
// byte. Claims that are a json.RawMessage or []byte are JSON, and are signed as they are. No object may have a name twice.
// Header parameters other than alg and typ are those of the map, which may be nil and may not name another alg. A text that is not UTF-8 is
// ErrOption, and a secret that NewSecretKey refuses is ErrKey.
//
// An exp, nbf or iat is a whole number of seconds from 1970 to the year 9999 (RFC 7519 section 2), such as NewNumericDate returns. Any
// other value is ErrOption, such as null, milliseconds, or a time.Time in a map: verifiers do not read it, or read another time.
func Sign(claims any, secret []byte, algorithm string, header map[string]any) (string, error) {
	read, err := readKeys(fromSecret, secret) // which refuses a secret that others may have
	if err != nil {
		return "", err
	}
	defer read.free()
	headerText, claimsText, err := parts(claims, algorithm, header)
	if err != nil {
		return "", err
	}
	token, err := read.sign(headerText, claimsText)
	return string(token), unsigned(err, headerText)
}

// SigningInput is what has to be signed for a token, with a key that is kept elsewhere, such as in a KMS or an HSM.
type SigningInput struct {
	// Algorithm is the algorithm of the signature.
	Algorithm string
	// Message has the bytes to be signed.
	Message []byte
}

// NewSigningInput returns what has to be signed for the token of these claims, with any of the twelve algorithms. The arguments are as
// for Sign.
func NewSigningInput(claims any, algorithm string, header map[string]any) (*SigningInput, error) {
	headerText, claimsText, err := parts(claims, algorithm, header)
	if err != nil {
		return nil, err
	}
	message, err := signingInput(headerText, claimsText)
	if err != nil {
		return nil, unsigned(err, headerText)
	}
	return &SigningInput{algorithm, message}, nil
}

// Token returns the token with this signature of the message. With ES256 and ES384 that is two numbers one after the other, which
// ECDSASignature makes of a signature in DER. A signature of another length than the algorithm has is ErrOption. With RSA the length depends on
// the key, and only an empty signature is ErrOption. Token does not verify the signature.
func (in *SigningInput) Token(signature []byte) (string, error) {
	if in == nil {
		return "", optionError("NewSigningInput did not make this SigningInput")
	}
	return (&handle{}).attach(in.Message, signature)
}

// parts returns the texts of header and claims.
func parts(claims any, algorithm string, header map[string]any) (headerOf, claimsOf []byte, err error) {
	if headerOf, err = headerText(algorithm, header); err != nil {
		return nil, nil, err
	}
	claimsOf, err = claimsText(claims)
	return headerOf, claimsOf, err
}

// claimsText returns the text of claims, whose times verifiers read.
func claimsText(claims any) ([]byte, error) {
	text, err := marshal("claims", claims)
	if err != nil {
		return nil, err
	}
	var members map[string]json.RawMessage
	if json.Unmarshal(text, &members) != nil {
		return text, nil // the library says that it is no object
	}
	for _, name := range []string{"exp", "nbf", "iat"} {
		if span, is := durationIn(reflect.ValueOf(claims), name); is {
			return nil, optionError("the claim %s is the time.Duration %v: write jwt.NewNumericDate(time.Now().Add(d))", name, span)
		}
		if err := checkTime(name, members[name]); err != nil {
			return nil, err
		}
	}
	return text, nil
}

// durationIn returns the claim of a map or a struct if it is a time.Duration. In JSON it would be nanoseconds, and four minutes a time before
// the year 9999. A type with a method MarshalJSON may write a time, so durationIn skips it.
func durationIn(claims reflect.Value, name string) (time.Duration, bool) {
	if !claims.IsValid() || claims.Type().Implements(reflect.TypeOf((*json.Marshaler)(nil)).Elem()) {
		return 0, false
	}
	switch claims.Kind() {
	case reflect.Pointer, reflect.Interface:
		return durationIn(claims.Elem(), name)
	case reflect.Map:
		if key := claims.Type().Key(); key.Kind() == reflect.String {
			return durationOf(claims.MapIndex(reflect.ValueOf(name).Convert(key)))
		}
	case reflect.Struct:
		for i := 0; i < claims.NumField(); i++ {
			field := claims.Type().Field(i)
			span, is := time.Duration(0), false
			if called, _, _ := strings.Cut(field.Tag.Get("json"), ","); called == name {
				span, is = durationOf(claims.Field(i))
			} else if field.Anonymous && called == "" {
				span, is = durationIn(claims.Field(i), name)
			}
			if is {
				return span, true
			}
		}
	}
	return 0, false
}

// durationOf returns a value, or what it leads to, as a time.Duration.
func durationOf(value reflect.Value) (time.Duration, bool) {
	for value.Kind() == reflect.Pointer || value.Kind() == reflect.Interface {
		value = value.Elem()
	}
	if !value.IsValid() || value.Type() != reflect.TypeOf(time.Duration(0)) {
		return 0, false
	}
	return time.Duration(value.Int()), true
}

// lastSecond is the last one of the year 9999. Milliseconds and nanoseconds of our time are greater.
const lastSecond = 253402300799

// checkTime returns an error if a claim is there, and is not a whole number of seconds from 1970 to the year 9999.
func checkTime(name string, text json.RawMessage) error {
	if text == nil {
		return nil
	}
	if string(text) == "null" {
		return optionError("the claim %s is null: leave it out, or write jwt.NewNumericDate(t)", name)
	}
	if since, err := strconv.ParseUint(string(text), 10, 64); err != nil || since > lastSecond {
		return optionError("the claim %s is %.100s, and not in whole seconds from 1970 to the year 9999: write jwt.NewNumericDate(t)", name, text)
	}
	return nil
}

// headerText returns the text of a header with these members.
func headerText(algorithm string, header map[string]any) ([]byte, error) {
	members := map[string]any{"typ": "JWT"}
	for name, it := range header {
		members[name] = it
	}
	if it, is := header["alg"]; is && it != algorithm {
		return nil, optionError("header has the alg %v, and algorithm is %q", it, algorithm)
	}
	members["alg"] = algorithm
	return marshal("header", members)
}

// marshal returns the JSON of an argument, whose texts have to be UTF-8. JSON stays as it is.
func marshal(argument string, value any) ([]byte, error) {
	switch it := value.(type) {
	case json.RawMessage:
		return it, nil
	case []byte:
		return it, nil
	}
	text, err := json.Marshal(value)
	if err != nil {
		return nil, optionError("%s: %v", argument, err)
	}
	if !utf8.Valid(text) || isReplaced(text) {
		return nil, optionError("%s has a text that is not UTF-8", argument)
	}
	return text, nil
}

// isReplaced returns whether JSON has the escape that json.Marshal writes for bytes that are not UTF-8. It writes U+FFFD itself as it is.
func isReplaced(text []byte) bool {
	for i := 0; i < len(text); i++ {
		if text[i] == '\\' {
			if bytes.HasPrefix(text[i:], []byte(`\ufffd`)) {
				return true
			}
			i++
		}
	}
	return false
}
