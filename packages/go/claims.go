//go:build cgo && linux && amd64

package jwt

import (
	"bytes"
	"encoding/json"
	"errors"
	"fmt"
	"math"
	"reflect"
	"strconv"
	"time"
)

// ErrInvalidClaims is claims that the method Validate of their type refuses. It wraps the error of Validate.
var ErrInvalidClaims = errors.New("jwt: the claims are refused by their type")

// RegisteredClaims has the claims of RFC 7519 section 4.1, to be embedded in a type of claims. A claim that is not set is not written.
type RegisteredClaims struct {
	Issuer    string       `json:"iss,omitempty"`
	Subject   string       `json:"sub,omitempty"`
	Audience  ClaimStrings `json:"aud,omitempty"`
	ExpiresAt *NumericDate `json:"exp,omitempty"`
	NotBefore *NumericDate `json:"nbf,omitempty"`
	IssuedAt  *NumericDate `json:"iat,omitempty"`
	ID        string       `json:"jti,omitempty"`
}

// ClaimStrings is a claim that is a text or a list of texts, such as aud. It is written as a list.
type ClaimStrings []string

// UnmarshalJSON reads a text or a list of texts.
func (c *ClaimStrings) UnmarshalJSON(text []byte) error {
	list := []*string{new(string)}
	var into any = &list
	if bytes.HasPrefix(text, []byte(`"`)) {
		into = list[0]
	}
	if err := json.Unmarshal(text, into); err != nil || list == nil { // null is read as json.Unmarshal reads it
		return err
	}
	read := make(ClaimStrings, len(list))
	for i, it := range list {
		if it == nil {
			return &json.UnmarshalTypeError{Value: "list with null", Type: reflect.TypeOf(*c)}
		}
		read[i] = *it
	}
	*c = read
	return nil
}

// NumericDate is a time as claims have it, in seconds since 1970-01-01 00:00:00 UTC (RFC 7519 section 2). It is written in whole seconds.
type NumericDate struct{ time.Time }

// NewNumericDate returns the whole second that a time is in.
func NewNumericDate(at time.Time) *NumericDate { return &NumericDate{at.Truncate(time.Second)} }

// MarshalJSON writes the whole seconds. A time before 1970, such as that of a NumericDate that was not set, is an error.
func (d NumericDate) MarshalJSON() ([]byte, error) {
	since := d.Unix()
	if since < 0 {
		return nil, fmt.Errorf("the time %v is before 1970", d.Time)
	}
	return strconv.AppendInt(nil, since, 10), nil
}

// latestSecond is the last that is read: package time computes right with this one, and not with all later ones.
const latestSecond = 1 << 60

// UnmarshalJSON reads a number, which may have a fraction.
func (d *NumericDate) UnmarshalJSON(text []byte) error {
	number := string(text)
	if number == "null" {
		return nil // as json.Unmarshal does
	}
	whole, err := strconv.ParseInt(number, 10, 64)
	part := 0.0
	if err != nil {
		since, err := strconv.ParseFloat(number, 64)
		if errors.Is(err, strconv.ErrSyntax) {
			return &json.UnmarshalTypeError{Value: "value that is not a number", Type: reflect.TypeOf(*d)}
		}
		since, part = math.Modf(since)
		whole = int64(math.Max(-2*latestSecond, math.Min(since, 2*latestSecond)))
	}
	if whole < -latestSecond || whole > latestSecond {
		return &json.UnmarshalTypeError{Value: "number " + number, Type: reflect.TypeOf(*d)}
	}
	d.Time = time.Unix(whole, int64(part*1e9))
	return nil
}

// readClaims reads claims into a value that keeps nothing from before, and calls its method Validate. After an error the value is zero.
func readClaims(claims []byte, into any) error {
	err := unmarshal(claims, into)
	if err != nil {
		setZero(targets(into)...)
	}
	return err
}

func unmarshal(claims []byte, into any) error {
	if err := checkNames(claims, mayFold(into)); err != nil {
		return fmt.Errorf("%w: %v", ErrMalformed, err)
	}
	if before := targets(into); len(before) > 0 {
		setZero(before[len(before)-1]) // json.Unmarshal keeps each field and map entry without a claim
	}
	if err := json.Unmarshal(claims, into); err != nil {
		return unreadClaims(err)
	}
	if it := validatorOf(into); it != nil {
		if err := it.Validate(); err != nil {
			return &joinedError{ErrInvalidClaims, err, ErrInvalidClaims.Error() + ": " + err.Error()}
		}
	}
	return nil
}

// unreadClaims returns the error of claims that json.Unmarshal does not read into a value.
func unreadClaims(err error) error {
	var noTarget *json.InvalidUnmarshalError
	var wrong *json.UnmarshalTypeError
	switch {
	case errors.As(err, &noTarget):
		return optionError("Claims: %v", err)
	case !errors.As(err, &wrong):
		return &joinedError{ErrMalformedClaim, err, ErrMalformedClaim.Error() + ": " + err.Error()}
	case wrong.Field == "":
		return optionError("claims are an object, and are not read into a value of type %v", wrong.Type)
	}
	text := fmt.Sprintf("a claim is malformed: %s is a %s, which is not read into a value of type %v", wrong.Field, wrong.Value, wrong.Type)
	return &Error{Claim: wrong.Field, kind: ErrMalformedClaim, text: text}
}

type validator interface{ Validate() error }

// mostSteps is how many pointers are followed, of which one may lead back to itself.
const mostSteps = 10

func isPointer(at reflect.Value) bool {
	return at.Kind() == reflect.Pointer || at.Kind() == reflect.Interface
}

// targets returns what a value leads to through pointers and can be set, the innermost last.
func targets(into any) []reflect.Value {
	var found []reflect.Value
	for i, at := 0, reflect.ValueOf(into); i < mostSteps && isPointer(at); i++ {
		if at = at.Elem(); at.CanSet() {
			found = append(found, at)
		}
	}
	return found
}

// validatorOf returns what asks a value, or what it leads to, whether its claims are valid, or nil.
func validatorOf(into any) validator {
	for i, at := 0, reflect.ValueOf(into); i < mostSteps && isPointer(at); i++ {
		if it, is := at.Interface().(validator); is {
			return it
		}
		at = at.Elem()
	}
	return nil
}

func setZero(values ...reflect.Value) {
	for _, it := range values {
		it.Set(reflect.Zero(it.Type()))
	}
}
