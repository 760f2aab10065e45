package jwt

import (
	"encoding/hex"
	"encoding/json"
	"errors"
	"fmt"
	"strings"
	"testing"
)

// TestSecretsOfOthers has the secrets of ../../tests/secrets.jsonl: those that others may have are refused, as bytes, as a key and in a
// set, and to sign.
func TestSecretsOfOthers(t *testing.T) {
	seen := map[bool]int{}
	rowsOf(t, "../../tests/secrets.jsonl", func(line []byte) {
		var it struct {
			ID        string
			Text, Hex *string
			Refused   bool
		}
		err := json.Unmarshal(line, &it)
		if err != nil || (it.Text == nil) == (it.Hex == nil) {
			t.Fatalf("%s: %v", line, err)
		}
		var secret []byte
		if it.Text != nil {
			secret = []byte(*it.Text)
		} else if secret, err = hex.DecodeString(*it.Hex); err != nil {
			t.Fatal(err)
		}
		seen[it.Refused]++
		for i, err := range madeWith(secret) {
			if errors.Is(err, ErrKey) != it.Refused || (err != nil) != it.Refused {
				t.Errorf("%s, %d: %v", it.ID, i, err)
			}
		}
	})
	if seen[true] < 50 || seen[false] < 20 {
		t.Errorf("the rows have %v alone", seen)
	}
}

// jwkOf returns the JSON Web Key of a secret, with the kid "a".
func jwkOf(secret []byte) string { return `{"kty":"oct","kid":"a","k":"` + part(secret) + `"}` }

// isBlank returns whether an error is the library's refusal of a secret by which anyone can sign.
func isBlank(err error) bool {
	var refused *Error
	return errors.Is(err, ErrKey) && errors.As(err, &refused) && refused.Status == 107
}

// TestZeros has secrets of zeros, as bytes, as a key and in a set: HMAC fills a shorter secret up with zeros, so that anyone has them.
func TestZeros(t *testing.T) {
	for _, size := range []int{0, 1, 2, 31, 32, 64, 65, 128, 129, 300, 5000} {
		zeros, almost := make([]byte, size), append(make([]byte, size), 1)
		for i, err := range madeWith(zeros) {
			if !isBlank(err) {
				t.Errorf("%d zeros, %d: %v", size, i, err)
			}
		}
		for i, err := range madeWith(almost) {
			if err != nil {
				t.Errorf("%d zeros and a byte, %d: %v", size, i, err)
			}
		}
	}
}

// madeWith returns the errors of the calls that take a secret, as bytes, as a key and in a set.
func madeWith(made []byte) []error {
	_, bySecret := NewSecretKey(made)
	_, byJWK := ParseJWK([]byte(jwkOf(made)))
	bySet := skippedIn(`{"keys":[` + jwkOf(secret) + `,` + jwkOf(made) + `,` + jwkOf(secret) + `]}`)
	_, signing := Sign(map[string]any{}, made, "HS256", nil)
	return []error{bySecret, byJWK, bySet, signing}
}

// skippedIn returns why the item at place 1 of a set is skipped, as an error of ErrKey, or nil if no item is skipped.
func skippedIn(set string) error {
	key, err := ParseJWKSet([]byte(set))
	if err != nil {
		return err
	}
	switch skipped := key.Skipped(); {
	case len(skipped) == 0:
		return nil
	case len(skipped) == 1 && skipped[0].Place == 1:
		return &Error{Status: skipped[0].Status, kind: ErrKey, text: skipped[0].String()}
	default:
		return fmt.Errorf("%v are skipped", skipped)
	}
}

// isBlankSet returns whether an error says that a set has no usable key, and that a secret is empty or all zeros.
func isBlankSet(err error) bool {
	return errors.Is(err, ErrKey) && isStatus(err, noUsableKey) && strings.Contains(err.Error(), "is skipped: Secret is empty or all zeros")
}

// TestKeysThatAnyoneHas has secrets in JSON with which anyone can sign, after members of other names. The library reads the very names,
// and the last value of a name.
func TestKeysThatAnyoneHas(t *testing.T) {
	for _, it := range []string{
		`{"kty":"oct","k":"","K":"c2VjcmV0"}`,
		`{"kty":"oct","k":"","\u212a":"c2VjcmV0"}`,
		`{"kty":"oct","K":"c2VjcmV0","k":"AAAA"}`,
		`{"kty":"oct","k":"","KTY":"RSA"}`,
		`{"kty":"oct","k":"","\u212aty":"RSA"}`,
		`{"kty":"RSA","k":"","kty":"oct"}`,
		`{"kty":"oct","k":"c2VjcmV0","k":""}`,
		`{"kty":"oct","k":"c2VjcmV0","\u006b":""}`,
		`{"\u006bty":"\u006fct","\u006b":"\u0041AAA"}`,
	} {
		if key, err := ParseJWK([]byte(it)); !isBlank(err) {
			t.Errorf("%s: %v, %v", it, key, err)
		}
		for _, set := range []string{`{"keys":[` + it + `]}`, `{"keys":[` + it + `],"KEYS":[{"kty":"oct","kid":"a","k":"c2VjcmV0"}]}`} {
			if key, err := ParseJWKSet([]byte(set)); !isBlankSet(err) {
				t.Errorf("%s: %v, %v", set, key, err)
			}
		}
		if err := skippedIn(`{"keys":[{"kty":"oct","kid":"a","k":"c2VjcmV0"},` + it + `],"\u212aeys":[]}`); !isBlank(err) {
			t.Errorf("%s: %v", it, err)
		}
	}
	keys, blank := "["+jwkOf(secret)+"]", "["+jwkOf(nil)+"]"
	for _, it := range []string{
		`{"keys":` + blank + `,"KEYS":` + keys + `}`,
		`{"keys":` + keys + `,"keys":` + blank + `}`,
		`{"keys":` + keys + `,"\u006beys":` + blank + `}`,
	} {
		if key, err := ParseJWKSet([]byte(it)); !isBlankSet(err) {
			t.Errorf("%s: %v, %v", it, key, err)
		}
	}
	for _, it := range []string{`{"KEYS":[{"kty":"oct","kid":"a","k":"c2VjcmV0"}]}`, `{"keys":{}}`, `{"keys":[5]}`, `[]`, `null`, `{}`} {
		if key, err := ParseJWKSet([]byte(it)); !errors.Is(err, ErrKey) {
			t.Errorf("%s: %v, %v", it, key, err)
		}
	}
}

// TestKeysThatNobodyHas has keys that are not blank: the last value of a member counts, and a key without a secret verifies no token.
func TestKeysThatNobodyHas(t *testing.T) {
	token := signed(`{"alg":"HS256","kid":"a"}`, `{"exp":1700000001}`, secret)
	for _, it := range []struct {
		key  string
		want error
	}{
		{`{"kty":"oct","kid":"a","k":"","k":"` + part(secret) + `"}`, nil},
		{`{"kty":"RSA","kty":"oct","kid":"a","k":"` + part(secret) + `","K":""}`, nil},
		{`{"kty":"oct","kid":"a","K":"` + part(secret) + `"}`, ErrKey},
		{`{"kty":"oct","kid":"a"}`, ErrKey},
		{`{"kty":"oct","kid":"a","k":5}`, ErrKey},
	} {
		key, err := ParseJWK([]byte(it.key))
		if err == nil {
			_, err = parse(t, token, key, []string{"HS256"})
		}
		set, bySet := ParseJWKSet([]byte(`{"keys":[` + it.key + `]}`))
		if bySet == nil {
			_, bySet = parse(t, token, set, []string{"HS256"})
		}
		if !errors.Is(err, it.want) || !errors.Is(bySet, it.want) {
			t.Errorf("%s: %v, %v, not %v", it.key, err, bySet, it.want)
		}
	}
}

type hidden struct {
	key      Key
	pointer  *Key
	verifier Verifier
	at       *Verifier
	list     []Key
	names    map[string]Key
	any      any
}

type Shown struct {
	Key      Key
	Pointer  *Key
	Verifier Verifier
	At       *Verifier
	List     []Key
	Names    map[string]Key
	Any      any
}

type embedded struct{ Key }

// TestSecretsInText has all that holds a secret, written by each verb of fmt and as JSON: no text has its bytes.
func TestSecretsInText(t *testing.T) {
	key := secretOf(t, secret)
	verifier, err := NewVerifier(key, []string{"HS256"})
	if err != nil {
		t.Fatal(err)
	}
	names := map[string]Key{"a": key}
	held := hidden{key, &key, *verifier, verifier, []Key{key}, names, key}
	shown := Shown{key, &key, *verifier, verifier, []Key{key}, names, key}
	for _, it := range []any{
		key, &key, *verifier, verifier, held, &held, shown, &shown, embedded{key}, &embedded{key}, []Key{key}, [1]Key{key}, names,
		struct{ inner struct{ key Key } }{struct{ key Key }{key}}, []any{held, shown}, map[string]any{"a": held},
	} {
		for _, verb := range []string{"%v", "%+v", "%#v", "%x", "%X", "%q", "%s", "%d", "%o", "%b", "%c", "%U", "% x", "%#x", "%08v", "%t", "%p", "%e"} {
			checkText(t, verb, fmt.Sprintf(verb, it))
		}
		checkText(t, "Sprint", fmt.Sprint(it))
		text, _ := json.Marshal(it)
		checkText(t, "json", string(text))
	}
	if text := fmt.Sprintf("%v %#v %d", key, key, &key); text != "[redacted] jwt.Key([redacted]) [redacted]" {
		t.Error(text)
	}
}

// checkText tells whether a text has some bytes of the secret, "0123456789abcdef..", as letters or as numbers of any base.
func checkText(t *testing.T, verb, text string) {
	t.Helper()
	for _, verbOf := range []string{"%s", "%q", "%x", "%X", "% x", "%d", "%#v", "%o", "%b", "%c", "%U"} {
		for _, some := range []any{secret[2:12], string(secret[2:12])} {
			part := strings.Trim(fmt.Sprintf(verbOf, some), `[]"{}byte`)
			if strings.Contains(text, part) {
				t.Errorf("%s: %s has %s", verb, text, part)
			}
		}
	}
	if strings.Contains(text, "MDEyMzQ1") {
		t.Errorf("%s: %s has the secret in base64", verb, text)
	}
}

// TestSignatureInText has a token that was verified: no text shows its signature, by which it could be used again.
func TestSignatureInText(t *testing.T) {
	text := signed(`{"alg":"HS256"}`, `{"exp":1700000001}`, secret)
	token, err := parse(t, text, secretOf(t, secret), []string{"HS256"})
	if err != nil {
		t.Fatal(err)
	}
	signature := signatureOf(t, text)
	for _, verb := range []string{"%v", "%+v", "%#v", "%s", "%q", "%x", "%d"} {
		for _, it := range []any{signature.Bytes[2:12], text[len(text)-20:]} {
			part := strings.Trim(fmt.Sprintf(verb, it), `[]"{}byte`)
			if shown := fmt.Sprintf(verb, token) + fmt.Sprintf(verb, *token) + fmt.Sprintf(verb, struct{ it *Token }{token}); strings.Contains(shown, part) {
				t.Errorf("%s: %s has %s", verb, shown, part)
			}
		}
	}
}
