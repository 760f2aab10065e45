//go:build cgo && linux && amd64

package jwt

import (
	"bytes"
	"encoding/json"
	"fmt"
	"reflect"
	"strings"
	"unicode"
)

// mayFold returns whether json.Unmarshal may match names of nested objects to fields: it does not in a map of any, nor in a nil any.
func mayFold(into any) bool {
	if _, is := into.(json.Unmarshaler); is {
		return true
	}
	to := reflect.ValueOf(into)
	if to.Kind() != reflect.Pointer || to.IsNil() {
		return true
	}
	to = to.Elem()
	if to.Kind() == reflect.Interface {
		return !to.IsNil()
	}
	return to.Kind() != reflect.Map || to.Type().Elem().Kind() != reflect.Interface
}

// checkNames returns an error if two members of an object differ by folding alone, or a claim and one of RFC 7519 section 4.1. Nested objects
// are compared if isNested. The library returns no object that has a name twice.
func checkNames(claims []byte, isNested bool) error {
	if arePlain(claims) {
		return nil
	}
	var read any
	_ = json.Unmarshal(claims, &read) // json.Unmarshal into the caller's value returns the error
	return checkFolded(read, isNested, "exp", "nbf", "iat", "aud", "iss", "sub", "jti")
}

// arePlain returns whether each name in a JSON text is the only one of its folding: it has no upper-case letter, no escape, and no letter
// beyond ASCII.
func arePlain(text []byte) bool {
	for i := 0; i < len(text); i++ {
		if text[i] != '"' {
			continue
		}
		isPlain := true
		for i++; i < len(text) && text[i] != '"'; i++ {
			if at := text[i]; at == '\\' {
				isPlain = false
				i++
			} else if at >= 0x80 || 'A' <= at && at <= 'Z' {
				isPlain = false
			}
		}
		if !isPlain && i < len(text) && bytes.HasPrefix(bytes.TrimLeft(text[i+1:], " \t\r\n"), []byte(":")) {
			return false
		}
	}
	return true
}

// checkFolded returns an error if two names of an object differ by folding alone, or one and a reserved name.
func checkFolded(value any, isNested bool, reserved ...string) error {
	inner := []any{}
	switch it := value.(type) {
	case []any:
		inner = it
	case map[string]any:
		names := make(map[string]string, len(it)+len(reserved))
		for _, name := range reserved {
			names[foldedName(name)] = name
		}
		for name, member := range it {
			folded := foldedName(name)
			if other, is := names[folded]; is && other != name {
				return fmt.Errorf("the names %q and %q differ by folding alone", other, name)
			}
			names[folded] = name
			inner = append(inner, member)
		}
	}
	for i := 0; isNested && i < len(inner); i++ {
		if err := checkFolded(inner[i], true); err != nil {
			return err
		}
	}
	return nil
}

// foldedName returns the same text for all names that encoding/json matches to one field: each letter becomes the least of those that
// are the same by Unicode's simple folding.
func foldedName(name string) string {
	return strings.Map(func(letter rune) rune {
		for {
			next := unicode.SimpleFold(letter)
			if next <= letter {
				return next
			}
			letter = next
		}
	}, name)
}
