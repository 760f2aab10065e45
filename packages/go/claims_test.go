package jwt

import (
	"encoding/json"
	"errors"
	"fmt"
	"math"
	"reflect"
	"strings"
	"sync"
	"testing"
	"time"
)

type session struct {
	RegisteredClaims
	Role  string `json:"role"`
	Realm struct {
		Roles []string `json:"roles"`
	} `json:"realm"`
}

var errRole = errors.New("the role is not one of ours")

func (s session) Validate() error {
	if s.Role != "" && s.Role != "admin" {
		return errRole
	}
	return nil
}

type byPointer struct{ Role string }

func (b *byPointer) Validate() error { return session{Role: b.Role}.Validate() }

// TestRegisteredClaims has claims that read back, and the text that is written.
func TestRegisteredClaims(t *testing.T) {
	written := session{RegisteredClaims: RegisteredClaims{
		Issuer: "https://login.example", Subject: "ada", Audience: ClaimStrings{"web"}, ID: "j",
		ExpiresAt: NewNumericDate(time.Unix(now+60, 999999999)), NotBefore: &NumericDate{time.Unix(now-60, 5)}, IssuedAt: NewNumericDate(time.Unix(now, 0)),
	}, Role: "admin"}
	token, err := Sign(written, secret, "HS256", nil)
	if err != nil {
		t.Fatal(err)
	}
	verified, err := parse(t, token, secretOf(t, secret), []string{"HS256"}, WithAudience("web"), WithIssuer("https://login.example"), WithIssuedAt())
	want := `{"iss":"https://login.example","sub":"ada","aud":["web"],"exp":1700000060,"nbf":1699999940,"iat":1700000000,"jti":"j","role":"admin","realm":{"roles":null}}`
	if err != nil || string(verified.RawClaims()) != want {
		t.Fatal(string(verified.RawClaims()), err)
	}
	var read session
	if err := verified.Claims(&read); err != nil || read.Subject != "ada" || read.ID != "j" || read.Audience[0] != "web" || read.ExpiresAt.Unix() != now+60 ||
		read.NotBefore.Unix() != now-60 || !read.IssuedAt.Equal(time.Unix(now, 0)) || read.Issuer != "https://login.example" {
		t.Error(read, err)
	}
	if text, err := json.Marshal(RegisteredClaims{}); err != nil || string(text) != `{}` {
		t.Error(string(text), err)
	}
	if token, err := Sign(RegisteredClaims{ExpiresAt: &NumericDate{}}, secret, "HS256", nil); token != "" || !errors.Is(err, ErrOption) || !strings.Contains(err.Error(), "before 1970") {
		t.Error(token, err)
	}
}

// TestReadClaims has claims that are read into a session, or are not, with the claim that the error names.
func TestReadClaims(t *testing.T) {
	for _, it := range []struct {
		claims, claim string
		want          error
	}{
		{`{"aud":"web"}`, "", nil},
		{`{"aud":["web","app"]}`, "", nil},
		{`{"aud":[]}`, "", nil},
		{`{"aud":null,"iat":null}`, "", nil},
		{`{"aud":5}`, "aud", ErrMalformedClaim},
		{`{"aud":["web",5]}`, "aud", ErrMalformedClaim},
		{`{"aud":["web",null]}`, "aud", ErrMalformedClaim},
		{`{"aud":{"a":1}}`, "aud", ErrMalformedClaim},
		{`{"sub":5}`, "sub", ErrMalformedClaim},
		{`{"sub":["a"]}`, "sub", ErrMalformedClaim},
		{`{"iat":1.5}`, "", nil},
		{`{"iat":-5}`, "", nil},
		{`{"iat":"5"}`, "iat", ErrMalformedClaim},
		{`{"iat":true}`, "iat", ErrMalformedClaim},
		{`{"iat":[5]}`, "iat", ErrMalformedClaim},
		{`{"iat":{}}`, "iat", ErrMalformedClaim},
		{`{"iat":1e300}`, "iat", ErrMalformedClaim},
		{`{"iat":-1e300}`, "iat", ErrMalformedClaim},
		{`{"iat":18446744073709551615}`, "iat", ErrMalformedClaim},
		{`{"role":"admin"}`, "", nil},
		{`{"role":"user"}`, "", ErrInvalidClaims},
		{`{"role":5,"sub":"ada"}`, "role", ErrMalformedClaim},
		{`{"realm":{"roles":["a",5]}}`, "realm.roles", ErrMalformedClaim},
		{`{"realm":5}`, "realm", ErrMalformedClaim},
		{`{"Sub":"a"}`, "", ErrMalformed},
	} {
		read := session{Role: "admin"}
		err := claimsOfAny(t, it.claims).Claims(&read)
		var refused *Error
		if !errors.Is(err, it.want) || it.claim != "" && (!errors.As(err, &refused) || refused.Claim != it.claim || !strings.Contains(err.Error(), it.claim+" is a ")) {
			t.Errorf("%s: %v, not %v", it.claims, err, it.want)
		}
		if err != nil && (!strings.HasPrefix(err.Error(), "jwt: ") || fmt.Sprintf("%+v", read) != fmt.Sprintf("%+v", session{})) {
			t.Errorf("%s: %+v, %v", it.claims, read, err)
		}
	}
}

// profile keeps earlier claims in several ways: in pointers, structs, maps and slices.
type profile struct {
	*RegisteredClaims
	Role   string `json:"role"`
	Admin  *bool  `json:"admin"`
	Realm  struct{ Roles []string }
	Groups map[string]string `json:"groups"`
	Text   []byte            `json:"text"`
	seen   int
}

// TestReusedTargets reads the claims of two tokens into one value. Then the value equals a new one with the claims of the second token.
func TestReusedTargets(t *testing.T) {
	admin := claimsOfAny(t, `{"sub":"ada","jti":"j","role":"admin","admin":true,"realm":{"roles":["a","b"]},"groups":{"a":"1"},"text":"YQ=="}`)
	guest := claimsOfAny(t, `{"sub":"bob","role":null,"groups":{"b":"2"}}`)
	pool := sync.Pool{New: func() any { return new(profile) }}
	pooled := func() any {
		it := pool.Get()
		pool.Put(it)
		return it
	}
	for name, made := range map[string]func() any{
		"a struct":             func() any { return &profile{seen: 1} },
		"a pooled struct":      pooled,
		"a pointer":            func() any { it := new(profile); return &it },
		"a nil pointer":        func() any { return new(*profile) },
		"a struct in an any":   func() any { var it any = new(profile); return &it },
		"a map":                func() any { return &map[string]any{"role": "admin"} },
		"a map of texts":       func() any { return &map[string]json.RawMessage{"role": []byte("1")} },
		"an any":               func() any { return new(any) },
		"a map in an any":      func() any { var it any = map[string]any{"role": "admin"}; return &it },
		"pointers to pointers": func() any { return new(**********profile) },
	} {
		reused, fresh := made(), made()
		first, second, alone := admin.Claims(reused), guest.Claims(reused), guest.Claims(fresh)
		if first != nil || second != nil || alone != nil || !reflect.DeepEqual(reused, fresh) {
			t.Errorf("%s: %v, %v, %v", name, first, second, alone)
		}
		if text, err := json.Marshal(reused); err != nil || !strings.Contains(string(text), "bob") || strings.Contains(string(text), `"admin":true`) || strings.Contains(string(text), `"a"`) {
			t.Errorf("%s: %s, %v", name, text, err)
		}
	}
	held := map[string]any{"mine": 1}
	into := held
	if err := guest.Claims(&into); err != nil || len(held) != 1 || len(into) != 3 {
		t.Error(err, held, into)
	}
}

func claimsOfAny(t *testing.T, claims string) *Token {
	t.Helper()
	token, err := parse(t, signed(`{"alg":"HS256"}`, claims, secret), secretOf(t, secret), []string{"HS256"}, WithoutExpiry(), WithAnyAudience())
	if err != nil {
		t.Fatalf("%s: %v", claims, err)
	}
	return token
}

// TestNumericDates compares dates with the times that they are.
func TestNumericDates(t *testing.T) {
	for text, want := range map[string]time.Time{
		"0": time.Unix(0, 0), "1700000000": time.Unix(now, 0), "1700000000.5": time.Unix(now, 5e8), "1.5": time.Unix(1, 5e8), "-1.5": time.Unix(-2, 5e8),
		"17e8": time.Unix(now, 0), "1700000000000": time.Unix(1700000000000, 0), "1152921504606846976": time.Unix(1<<60, 0), "null": {},
	} {
		var read NumericDate
		if err := json.Unmarshal([]byte(text), &read); err != nil || !read.Equal(want) {
			t.Errorf("%s: %v, %v", text, read, err)
		}
	}
	for _, text := range []string{"1152921504606846977", "-1152921504606846977", "9223372036854775807", "9223372036854775808", "1e400", `"5"`, `""`, "true", "[]", "{}"} {
		var read NumericDate
		if err := json.Unmarshal([]byte(text), &read); err == nil || !read.IsZero() {
			t.Errorf("%s: %v", text, read)
		}
	}
	if latest := time.Unix(latestSecond, 0); !latest.After(time.Unix(now, 0)) || time.Unix(math.MaxInt64, 0).After(time.Unix(now, 0)) {
		t.Error("package time computes right with other times")
	}
	if err := (&NumericDate{}).UnmarshalJSON(nil); err == nil {
		t.Error("nothing is read")
	}
}

// TestValidate has claims that their type refuses, by a value and by pointers.
func TestValidate(t *testing.T) {
	admin, user := claimsOfAny(t, `{"role":"admin"}`), claimsOfAny(t, `{"role":"user"}`)
	var empty *byPointer
	var filled, twice any = &byPointer{}, &empty
	for _, into := range []any{&session{}, &byPointer{}, &empty, &filled, &twice} {
		if err := admin.Claims(into); err != nil {
			t.Errorf("%T: %v", into, err)
		}
		if err := user.Claims(into); !errors.Is(err, ErrInvalidClaims) || !errors.Is(err, errRole) {
			t.Errorf("%T: %v", into, err)
		}
	}
	left := &byPointer{}
	filled = left
	if err := user.Claims(&filled); err == nil || empty != nil || filled != nil || left.Role != "" {
		t.Error(err, empty, filled, left)
	}
	var itself any
	itself = &itself
	if err := user.Claims(&itself); err != nil {
		t.Error(err)
	}
	var plain map[string]any
	var number int
	for _, it := range []struct{ into, want any }{{&plain, nil}, {&number, ErrOption}, {nil, ErrOption}, {session{}, ErrOption}, {(*session)(nil), ErrOption}} {
		err := user.Claims(it.into)
		if want, is := it.want.(error); is != (err != nil) || !errors.Is(err, want) {
			t.Errorf("%T: %v", it.into, err)
		}
	}
	var none *Token
	for _, it := range []*Token{none, {}} {
		_, noHeader := it.Header()
		if err := it.Claims(&plain); !errors.Is(err, ErrOption) || !errors.Is(noHeader, ErrOption) || it.RawClaims() != nil {
			t.Error(err, noHeader)
		}
	}
}

// TestIssuedAt has tokens whose iat is before, at and after the time.
func TestIssuedAt(t *testing.T) {
	key := secretOf(t, secret)
	for _, it := range []struct {
		iat    string
		leeway time.Duration
		want   error
	}{
		{"", 0, nil}, {`,"iat":1700000000`, 0, nil}, {`,"iat":1699999999.5`, 0, nil}, {`,"iat":0`, 0, nil}, {`,"iat":-1`, 0, nil}, {`,"iat":-1e300`, 0, nil},
		{`,"iat":1700000001`, 0, ErrNotYetValid}, {`,"iat":1700000000.5`, 0, ErrNotYetValid}, {`,"iat":18446744073709551615`, 0, ErrNotYetValid},
		{`,"iat":1e300`, 0, ErrNotYetValid}, {`,"iat":17e8`, 0, nil}, {`,"iat":1700000005`, 5 * time.Second, nil},
		{`,"iat":1700000005.5`, 5 * time.Second, ErrNotYetValid}, {`,"iat":1700000006`, 5 * time.Second, ErrNotYetValid},
		{`,"iat":"1"`, 0, ErrMalformedClaim}, {`,"iat":null`, 0, ErrMalformedClaim}, {`,"iat":true`, 0, ErrMalformedClaim}, {`,"iat":[1]`, 0, ErrMalformedClaim},
	} {
		token := signed(`{"alg":"HS256"}`, `{"exp":1700000100`+it.iat+`}`, secret)
		_, err := parse(t, token, key, []string{"HS256"}, WithIssuedAt(), WithLeeway(it.leeway))
		checked, byVerdict := signatureOf(t, token), []Option{at(now), WithIssuedAt(), WithLeeway(it.leeway)}
		_, other := ParseByVerdict(token, checked, true, []string{"HS256"}, byVerdict...)
		var refused *Error
		for _, err := range []error{err, other} {
			if !errors.Is(err, it.want) || err != nil && (!errors.As(err, &refused) || refused.Claim != "iat") {
				t.Errorf("%s: %v, not %v", it.iat, err, it.want)
			}
		}
		if _, err := parse(t, token, key, []string{"HS256"}); err != nil {
			t.Errorf("%s: %v", it.iat, err)
		}
	}
	token, err := Sign(RegisteredClaims{ExpiresAt: NewNumericDate(time.Now().Add(time.Hour)), IssuedAt: NewNumericDate(time.Now().Add(time.Minute))}, secret, "HS256", nil)
	if err != nil {
		t.Fatal(err)
	}
	if _, err := Parse(token, key, []string{"HS256"}, WithIssuedAt()); !errors.Is(err, ErrNotYetValid) {
		t.Error(err)
	}
}

// TestTokenInText has a token, written by verbs of fmt and as JSON: no text shows its claims, also of a short one and of a long one.
func TestTokenInText(t *testing.T) {
	for _, length := range []int{1, 500} {
		token := claimsOfAny(t, `{"sub":"alice","text":"`+strings.Repeat("a", length)+`"}`)
		text, _ := json.Marshal(token)
		for _, verb := range []string{"%v", "%+v", "%#v", "%s", "%q", "%x", "%X", "%d", "%c", "%o"} {
			shown := string(text) + fmt.Sprintf(verb, token) + fmt.Sprintf(verb, *token) + fmt.Sprintf(verb, struct{ it Token }{*token}) +
				fmt.Sprintf(verb, struct{ It *Token }{token}) + fmt.Sprintf(verb, []any{*token, struct{ it *Token }{token}})
			for _, of := range []string{"%s", "%x", "%X", "%d", "%c", "%o"} {
				if part := strings.Trim(fmt.Sprintf(of, []byte("alice")), "[]"); strings.Contains(shown, part) {
					t.Errorf("%s: %s has %s", verb, shown, part)
				}
			}
		}
	}
}
