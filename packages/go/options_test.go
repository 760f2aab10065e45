package jwt

import (
	"crypto/ecdsa"
	"crypto/ed25519"
	"crypto/elliptic"
	"crypto/rsa"
	"encoding/json"
	"errors"
	"math/big"
	"strings"
	"testing"
	"time"
)

var slips = []struct {
	name string
	with []Option
}{
	{"WithIssuer", []Option{WithIssuer()}},
	{"WithIssuer", []Option{WithIssuer([]string(nil)...)}},
	{"WithIssuer", []Option{WithIssuer([]string{}...)}},
	{"WithIssuer", []Option{WithIssuer("")}},
	{"WithIssuer", []Option{WithIssuer("https://evil", "")}},
	{"WithIssuer", []Option{WithIssuer("https://evil"), WithIssuer()}},
	{"WithIssuer", []Option{WithIssuer("https://evil", "\xff")}},
	{"WithAudience", []Option{WithAudience()}},
	{"WithAudience", []Option{WithAudience([]string(nil)...)}},
	{"WithAudience", []Option{WithAudience("")}},
	{"WithAudience", []Option{WithAudience("\xff")}},
	{"WithSubject", []Option{WithSubject("")}},
	{"WithSubject", []Option{WithSubject("\xff")}},
	{"WithSubject", []Option{WithSubject("\xed\xa0\x80")}},
	{"WithRequired", []Option{WithRequired()}},
	{"WithRequired", []Option{WithRequired([]string(nil)...)}},
	{"WithRequired", []Option{WithRequired("")}},
	{"WithRequired", []Option{WithRequired("\xff")}},
	{"WithRequired", []Option{WithoutExpiry(), WithRequired("exp")}},
	{"WithRequired", []Option{WithRequired("exp"), WithoutExpiry()}},
	{"WithStrings", []Option{WithStrings()}},
	{"WithStrings", []Option{WithStrings([]string(nil)...)}},
	{"WithStrings", []Option{WithStrings("sub", "")}},
	{"WithStrings", []Option{WithStrings("\xff")}},
	{"WithLeeway", []Option{WithLeeway(30)}},
	{"WithLeeway", []Option{WithLeeway(1500 * time.Millisecond)}},
	{"WithLeeway", []Option{WithLeeway(-time.Second)}},
	{"WithRemaining", []Option{WithRemaining(0)}},
	{"WithRemaining", []Option{WithRemaining(1500 * time.Millisecond)}},
	{"WithRemaining", []Option{WithRemaining(time.Minute), WithExpired()}},
	{"WithAudience", []Option{WithAudience("x"), WithAnyAudience()}},
	{"WithUnderstoodCrit", []Option{WithUnderstoodCrit()}},
	{"WithUnderstoodCrit", []Option{WithUnderstoodCrit([]string(nil)...)}},
	{"WithUnderstoodCrit", []Option{WithUnderstoodCrit("x", "")}},
	{"WithUnderstoodCrit", []Option{WithUnderstoodCrit("\xff")}},
	{"WithTime has no function", []Option{WithTime(nil)}},
	{"WithTime: the clock", []Option{WithTime(func() time.Time { return time.Unix(-1, 0) })}},
	{"WithTime: the clock", []Option{WithTime(func() time.Time { return time.Time{} })}},
	{"WithIssuer is given twice: give all values in one call", []Option{WithIssuer("https://evil"), WithIssuer("b")}},
	{"WithIssuer is given twice", append([]Option{WithIssuer("https://evil")}, WithIssuer("b"))},
	{"WithIssuer is given twice", []Option{WithIssuer("b"), WithRequired("iss"), WithIssuer("https://evil")}},
	{"WithIssuer is given twice", []Option{WithIssuer("https://evil"), WithIssuer("https://evil")}},
	{"WithAudience is given twice: give all values in one call", []Option{WithAudience("a"), WithAudience("b")}},
	{"WithUnderstoodCrit is given twice: give all values in one call", []Option{WithUnderstoodCrit("a"), WithUnderstoodCrit("b")}},
	{"WithSubject is given twice: leave one of the two out", []Option{WithSubject("a"), WithSubject("\ufffd")}},
	{"WithLeeway is given twice: leave one of the two out", []Option{WithLeeway(0), WithLeeway(time.Second)}},
	{"WithRemaining is given twice: leave one of the two out", []Option{WithRemaining(time.Hour), WithRemaining(time.Second)}},
	{"WithTime is given twice: leave one of the two out", []Option{at(now + 1), at(now)}},
	{"nil", []Option{nil}},
}

// TestSlips has options that would ask for nothing, for something else, or for two things: each is an error that names the option, and no
// token is accepted.
func TestSlips(t *testing.T) {
	key := secretOf(t, secret)
	token := signed(`{"alg":"HS256"}`, `{"exp":1700000001,"iss":"https://evil","sub":"\ufffd"}`, secret)
	for _, it := range slips {
		parsed, err := parse(t, token, key, []string{"HS256"}, it.with...)
		if parsed != nil || !errors.Is(err, ErrOption) || !strings.Contains(err.Error(), it.name) {
			t.Errorf("%s: %v, %v", it.name, parsed, err)
		}
		parsed, err = ParseByVerdict(token, signatureOf(t, token), true, []string{"HS256"}, atUnless(now, it.with)...)
		if parsed != nil || !errors.Is(err, ErrOption) || !strings.Contains(err.Error(), it.name) {
			t.Errorf("%s: %v, %v", it.name, parsed, err)
		}
	}
	for _, algorithms := range [][]string{nil, {}, {""}, {"HS256", ""}, {"HS256\xff"}, {"\ufffd"}} {
		if _, err := NewVerifier(key, algorithms); !errors.Is(err, ErrOption) || !strings.Contains(err.Error(), "algorithms") {
			t.Errorf("%q: %v", algorithms, err)
		}
		if _, err := ParseByVerdict(token, signatureOf(t, token), true, algorithms); !errors.Is(err, ErrOption) || !strings.Contains(err.Error(), "algorithms") {
			t.Errorf("%q: %v", algorithms, err)
		}
	}
	var verifier Verifier
	if _, err := verifier.Parse(token); !errors.Is(err, ErrOption) {
		t.Error(err)
	}
	// options serve several verifiers, and only WithRequired and WithStrings may be given several times
	twice := []Option{WithRequired("iss"), WithRequired("sub"), WithStrings("iss"), WithStrings("sub"), WithIssuer("https://evil"), WithoutExpiry(), WithoutExpiry()}
	for range [2]int{} {
		if _, err := parse(t, token, key, []string{"HS256"}, twice...); err != nil {
			t.Error(err)
		}
	}
	if _, err := parse(t, signed(`{"alg":"HS256"}`, `{"exp":1700000001,"iss":"https://evil"}`, secret), key, []string{"HS256"}, twice...); !errors.Is(err, ErrMissingClaim) {
		t.Error(err)
	}
}

// TestUTF8 has arguments that json.Marshal would change: a text that is not UTF-8 would be that of another subject or key.
func TestUTF8(t *testing.T) {
	type claims struct {
		Sub string `json:"sub"`
	}
	for _, it := range []struct{ claims, header any }{
		{claims{"\xff"}, nil},
		{map[string]any{"\xff": 1}, nil},
		{map[string]any{"a": []any{map[string]any{"b": "x\xff"}}}, nil},
		{map[string]any{"a": "\\\xff"}, nil},
		{json.RawMessage("{\"a\":\"\xff\"}"), nil},
		{map[string]any{}, "\xff"},
	} {
		header := map[string]any{}
		if it.header != nil {
			header["kid"] = it.header
		}
		if token, err := Sign(it.claims, secret, "HS256", header); token != "" || !errors.Is(err, ErrOption) {
			t.Errorf("%q: %v, %v", it, token, err)
		}
	}
	if _, err := Sign(map[string]any{}, secret, "HS256\xff", nil); !errors.Is(err, ErrOption) {
		t.Error(err)
	}
	// U+FFFD itself, and the text of its escape, are texts like others
	for _, sub := range []string{"\ufffd", `\ufffd`, `\\ufffd`, "caf\u00e9"} {
		token, err := Sign(map[string]any{"exp": 1700000001, "sub": sub}, secret, "HS256", nil)
		if err != nil {
			t.Errorf("%q: %v", sub, err)
			continue
		}
		if _, err := parse(t, token, secretOf(t, secret), []string{"HS256"}, WithSubject(sub)); err != nil {
			t.Errorf("%q: %v", sub, err)
		}
	}
}

// TestUTF8OfKeys has keys whose text is not UTF-8.
func TestUTF8OfKeys(t *testing.T) {
	for _, made := range []func() (Key, error){
		func() (Key, error) { return ParseJWK([]byte("{\"kty\":\"oct\",\"k\":\"c2VjcmV0\",\"kid\":\"\xff\"}")) },
		func() (Key, error) {
			return ParseJWKSet([]byte("{\"keys\":[{\"kty\":\"oct\",\"k\":\"c2VjcmV0\",\"kid\":\"\xff\"}]}"))
		},
	} {
		if _, err := made(); !errors.Is(err, ErrKey) {
			t.Error(err)
		}
	}
}

// TestHeader has a header that names another algorithm than the one that signs.
func TestHeader(t *testing.T) {
	for _, alg := range []any{"HS512", "none", 5, nil, []string{"HS256"}} {
		token, err := Sign(map[string]any{}, secret, "HS256", map[string]any{"alg": alg})
		if token != "" || !errors.Is(err, ErrOption) || !strings.Contains(err.Error(), "header") {
			t.Errorf("%v: %v, %v", alg, token, err)
		}
	}
	if _, err := Sign(map[string]any{}, secret, "HS256", map[string]any{"alg": "HS256"}); err != nil {
		t.Error(err)
	}
}

// TestPublicKeys has public keys that are not complete, or not on their curve: no panic, and no key.
func TestPublicKeys(t *testing.T) {
	one := big.NewInt(1)
	for _, it := range []any{
		nil, (*rsa.PublicKey)(nil), &rsa.PublicKey{}, &rsa.PublicKey{N: one}, &rsa.PublicKey{N: one, E: -3}, &rsa.PublicKey{N: big.NewInt(-1), E: 3},
		rsa.PublicKey{N: one, E: 3}, (*ecdsa.PublicKey)(nil), &ecdsa.PublicKey{}, &ecdsa.PublicKey{Curve: elliptic.P256()},
		&ecdsa.PublicKey{Curve: elliptic.P256(), X: one}, &ecdsa.PublicKey{Curve: elliptic.P256(), X: big.NewInt(-1), Y: one},
		&ecdsa.PublicKey{Curve: elliptic.P256(), X: new(big.Int).Lsh(one, 256), Y: one}, &ecdsa.PublicKey{Curve: elliptic.P521(), X: one, Y: one},
		ed25519.PublicKey(nil), ed25519.PublicKey("short"), (*ed25519.PublicKey)(nil),
	} {
		if key, err := NewPublicKey(it); !errors.Is(err, ErrKey) {
			t.Errorf("%T %v: %v, %v", it, it, key, err)
		}
	}
}
