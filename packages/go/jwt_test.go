package jwt

import (
	"bufio"
	"crypto/hmac"
	"crypto/sha256"
	"encoding/base64"
	"encoding/json"
	"errors"
	"fmt"
	"math/big"
	"os"
	"strings"
	"testing"
	"time"
)

const now = 1700000000

var secret = []byte("0123456789abcdef0123456789abcdef")

func part(text []byte) string { return base64.RawURLEncoding.EncodeToString(text) }

// signed returns a token as Go's hmac signs it.
func signed(header, claims string, secret []byte) string {
	message := part([]byte(header)) + "." + part([]byte(claims))
	mac := hmac.New(sha256.New, secret)
	mac.Write([]byte(message))
	return message + "." + part(mac.Sum(nil))
}

func at(moment int64) Option { return WithTime(func() time.Time { return time.Unix(moment, 0) }) }

// atUnless returns options at a time, unless they have another one.
func atUnless(moment int64, with []Option) []Option {
	return append(append([]Option{}, with...), func(asked *options) error {
		if asked.now == nil {
			return at(moment)(asked)
		}
		return nil
	})
}

func parse(t *testing.T, token string, key Key, algorithms []string, with ...Option) (*Token, error) {
	t.Helper()
	return Parse(token, key, algorithms, atUnless(now, with)...)
}

func secretOf(t *testing.T, secret []byte) Key {
	t.Helper()
	key, err := NewSecretKey(secret)
	if err != nil {
		t.Fatal(err)
	}
	return key
}

// TestRefusals has each kind of refusal.
func TestRefusals(t *testing.T) {
	key := secretOf(t, secret)
	header, long := `{"alg":"HS256"}`, strings.Repeat("a", 5000)
	for _, it := range []struct {
		name, token string
		with        []Option
		want        error
	}{
		{"a token", signed(header, `{"exp":1700000001}`, secret), nil, nil},
		{"at its exp", signed(header, `{"exp":1700000000}`, secret), nil, ErrExpired},
		{"with leeway", signed(header, `{"exp":1699999991}`, secret), []Option{WithLeeway(10 * time.Second)}, nil},
		{"past the leeway", signed(header, `{"exp":1699999990}`, secret), []Option{WithLeeway(10 * time.Second)}, ErrExpired},
		{"no exp", signed(header, `{}`, secret), nil, ErrMissingClaim},
		{"no exp is needed", signed(header, `{}`, secret), []Option{WithoutExpiry()}, nil},
		{"not yet", signed(header, `{"exp":1700000001,"nbf":1700000001}`, secret), nil, ErrNotYetValid},
		{"nbf is no number", signed(header, `{"exp":1700000001,"nbf":"x"}`, secret), nil, ErrMalformedClaim},
		{"its audience", signed(header, `{"exp":1700000001,"aud":["web"]}`, secret), []Option{WithAudience("app", "web")}, nil},
		{"another audience", signed(header, `{"exp":1700000001,"aud":"x"}`, secret), []Option{WithAudience("web")}, ErrAudience},
		{"no audience", signed(header, `{"exp":1700000001}`, secret), []Option{WithAudience("web")}, ErrMissingClaim},
		{"an audience that none asks for", signed(header, `{"exp":1700000001,"aud":"x"}`, secret), nil, ErrAudience},
		{"an audience that none has to ask for", signed(header, `{"exp":1700000001,"aud":"x"}`, secret), []Option{WithAnyAudience()}, nil},
		{"a long audience", signed(header, `{"exp":1700000001,"aud":"`+long+`"}`, secret), []Option{WithAudience(long)}, nil},
		{"expired, which is accepted", signed(header, `{"exp":1}`, secret), []Option{WithExpired()}, nil},
		{"no exp, and an expired one is accepted", signed(header, `{}`, secret), []Option{WithExpired()}, ErrMissingClaim},
		{"early, which is accepted", signed(header, `{"exp":1700000001,"nbf":1700000001}`, secret), []Option{WithEarly()}, nil},
		{"no issuer", signed(header, `{"exp":1700000001}`, secret), []Option{WithIssuer("x")}, ErrMissingClaim},
		{"no subject", signed(header, `{"exp":1700000001}`, secret), []Option{WithSubject("x")}, ErrMissingClaim},
		{"it remains long enough", signed(header, `{"exp":1700000010}`, secret), []Option{WithRemaining(10 * time.Second)}, nil},
		{"it does not", signed(header, `{"exp":1700000009}`, secret), []Option{WithRemaining(10 * time.Second)}, ErrExpired},
		{"its issuer", signed(header, `{"exp":1700000001,"iss":"x"}`, secret), []Option{WithIssuer("x")}, nil},
		{"another issuer", signed(header, `{"exp":1700000001,"iss":"y"}`, secret), []Option{WithIssuer("x")}, ErrIssuer},
		{"its subject", signed(header, `{"exp":1700000001,"sub":"x"}`, secret), []Option{WithSubject("x")}, nil},
		{"another subject", signed(header, `{"exp":1700000001,"sub":"y"}`, secret), []Option{WithSubject("x")}, ErrSubject},
		{"a required claim", signed(header, `{"exp":1700000001}`, secret), []Option{WithRequired("nbf")}, ErrMissingClaim},
		{"another secret", signed(header, `{"exp":1700000001}`, []byte("another")), nil, ErrSignature},
		{"another algorithm", signed(`{"alg":"HS384"}`, `{"exp":1700000001}`, secret), nil, ErrAlgorithm},
		{"no algorithm", signed(`{"alg":"none"}`, `{"exp":1700000001}`, secret), nil, ErrMalformed},
		{"a crit that is understood", signed(`{"alg":"HS256","crit":["x"],"x":1}`, `{"exp":1700000001}`, secret), []Option{WithUnderstoodCrit("y", "x")}, nil},
		{"a crit that is understood in part", signed(`{"alg":"HS256","crit":["x","z"],"x":1,"z":1}`, `{"exp":1700000001}`, secret), []Option{WithUnderstoodCrit("y", "x")}, ErrCrit},
		{"crit", signed(`{"alg":"HS256","crit":["x"],"x":1}`, `{"exp":1700000001}`, secret), nil, ErrCrit},
		// of a member that is repeated the last one counts (RFC 7515 section 4)
		{"a repeated alg", signed(`{"alg":"none","alg":"HS256"}`, `{"exp":1700000001}`, secret), nil, nil},
		{"a repeated alg, whose last is another", signed(`{"alg":"HS256","alg":"HS384"}`, `{"exp":1700000001}`, secret), nil, ErrAlgorithm},
		{"a repeated crit", signed(`{"alg":"HS256","crit":["y"],"crit":["x"],"x":1}`, `{"exp":1700000001}`, secret), nil, ErrCrit},
		{"a repeated exp, whose last is over", signed(header, `{"exp":1700000001,"exp":1}`, secret), nil, ErrExpired},
		{"a repeated exp", signed(header, `{"exp":1,"exp":1700000001}`, secret), nil, nil},
		{"no token", "a.b", nil, ErrMalformed},
		{"nothing", "", nil, ErrMalformed},
		{"no object", signed(header, `[]`, secret), nil, ErrMalformed},
		{"a required claim of any name", signed(header, `{"exp":1700000001,"jti":0}`, secret), []Option{WithRequired("jti")}, nil},
		{"none of this name", signed(header, `{"exp":1700000001}`, secret), []Option{WithRequired("jti")}, ErrMissingClaim},
		{"a required claim that is null", signed(header, `{"exp":1700000001,"jti":null}`, secret), []Option{WithRequired("jti")}, ErrMissingClaim},
		{"a claim in other letters", signed(header, `{"exp":1700000001,"JTI":"x"}`, secret), []Option{WithRequired("jti")}, ErrMissingClaim},
		{"an exp in other letters", signed(header, `{"EXP":1700000001}`, secret), []Option{WithRequired("EXP")}, ErrMissingClaim},
		{"a string", signed(header, `{"exp":1700000001,"sub":""}`, secret), []Option{WithStrings("sub", "jti")}, nil},
		{"a string that is null", signed(header, `{"exp":1700000001,"sub":null}`, secret), []Option{WithStrings("sub")}, ErrMalformedClaim},
		{"a number instead of a string", signed(header, `{"exp":1700000001,"sub":5}`, secret), []Option{WithStrings("sub")}, ErrMalformedClaim},
		{"a number that may be there", signed(header, `{"exp":1700000001,"sub":5}`, secret), nil, nil},
		{"one audience", signed(header, `{"exp":1700000001,"aud":"web"}`, secret), []Option{WithAudience("web"), WithOneAudience()}, nil},
		{"a list of one audience", signed(header, `{"exp":1700000001,"aud":["web"]}`, secret), []Option{WithAudience("web"), WithOneAudience()}, ErrMalformedClaim},
		{"any audience, but one", signed(header, `{"exp":1700000001,"aud":["a","b"]}`, secret), []Option{WithAnyAudience(), WithOneAudience()}, ErrMalformedClaim},
		{"a list of issuers", signed(header, `{"exp":1700000001,"iss":["x"]}`, secret), []Option{WithIssuer("x")}, ErrMalformedClaim},
		{"a list of other issuers", signed(header, `{"exp":1700000001,"iss":["y"]}`, secret), []Option{WithIssuer("x")}, ErrIssuer},
		{"too long", strings.Repeat("a", 1<<20+1), nil, ErrMalformed},
		{"a negative leeway", signed(header, `{}`, secret), []Option{WithLeeway(-1)}, ErrOption},
	} {
		t.Run(it.name, func(t *testing.T) {
			_, err := parse(t, it.token, key, []string{"HS256"}, it.with...)
			if !errors.Is(err, it.want) {
				t.Errorf("%v, not %v", err, it.want)
			}
		})
	}
}

// TestClaimOfError has refusals for a claim, and tells which one.
func TestClaimOfError(t *testing.T) {
	key := secretOf(t, secret)
	for _, it := range []struct {
		claims, claim string
		with          []Option
		want          error
	}{
		{`{}`, "exp", nil, ErrMissingClaim},
		{`{"exp":"x"}`, "exp", nil, ErrMissingClaim},
		{`{"exp":1700000001}`, "nbf", []Option{WithRequired("nbf")}, ErrMissingClaim},
		{`{"exp":1700000001}`, "aud", []Option{WithAudience("x")}, ErrMissingClaim},
		{`{"exp":1700000001}`, "iss", []Option{WithIssuer("x")}, ErrMissingClaim},
		{`{"exp":1700000001}`, "sub", []Option{WithSubject("x")}, ErrMissingClaim},
		{`{"exp":"x"}`, "exp", []Option{WithoutExpiry()}, ErrMalformedClaim},
		{`{"exp":1700000001,"nbf":"x"}`, "nbf", nil, ErrMalformedClaim},
		{`{"exp":1700000001,"tenant":1}`, "role", []Option{WithRequired("tenant"), WithRequired("role")}, ErrMissingClaim},
		{`{"exp":1700000001,"nbf":5,"tenant":null}`, "tenant", []Option{WithRequired("nbf", "tenant", "role")}, ErrMissingClaim},
		{`{"exp":1700000001,"iss":"x","jti":5}`, "jti", []Option{WithStrings("sub"), WithIssuer("x"), WithStrings("jti")}, ErrMalformedClaim},
		{`{"exp":1700000001,"aud":["x"]}`, "aud", []Option{WithAudience("x"), WithOneAudience()}, ErrMalformedClaim},
		{`{"exp":1700000001,"iat":1700000001}`, "iat", []Option{WithIssuedAt()}, ErrNotYetValid},
		{`{"exp":1700000001,"nbf":1700000001}`, "", []Option{WithIssuedAt()}, ErrNotYetValid},
		{`{"exp":1700000001,"iat":"x"}`, "iat", []Option{WithIssuedAt(), WithStrings("iat")}, ErrMalformedClaim},
		{`{"exp":1}`, "", nil, ErrExpired},
		{`{"exp":1700000001,"iss":"y"}`, "", []Option{WithIssuer("x")}, ErrIssuer},
	} {
		_, err := parse(t, signed(`{"alg":"HS256"}`, it.claims, secret), key, []string{"HS256"}, it.with...)
		var refused *Error
		if !errors.Is(err, it.want) || !errors.As(err, &refused) || refused.Claim != it.claim {
			t.Errorf("%s: %v, %+v, not of %q", it.claims, err, refused, it.claim)
		}
		if it.claim != "" && !strings.Contains(err.Error(), ": "+it.claim) {
			t.Errorf("%v does not name %s", err, it.claim)
		}
	}
}

// TestArguments has keys and algorithms that can't be right.
func TestArguments(t *testing.T) {
	for _, made := range []func() (Key, error){
		func() (Key, error) { return NewSecretKey(nil) },
		func() (Key, error) { return NewSecretKey(make([]byte, 64)) },
		func() (Key, error) { return ParseJWK([]byte(`{"kty":"oct","k":""}`)) },
		func() (Key, error) { return ParseJWK([]byte(`{"kty":"oct","k":"AAAA"}`)) },
		func() (Key, error) { return ParseJWK([]byte(`{"kty":"other"}`)) },
		func() (Key, error) { return ParseJWK([]byte(`{`)) },
		func() (Key, error) { return ParseJWK(nil) },
		func() (Key, error) { return ParseJWK([]byte(`{"kty":"EC"}`)) },
		func() (Key, error) { return ParseJWK([]byte(`{"kty":"oct","k":"*"}`)) },
		func() (Key, error) { return ParseJWKSet([]byte(`{"keys":[]}`)) },
		func() (Key, error) { return ParseJWKSet([]byte(`{"keys":1}`)) },
		func() (Key, error) { return ParseJWKSet([]byte(`{"keys":[{"kty":"oct","kid":"a","k":""}]}`)) },
		func() (Key, error) { return ParsePEM([]byte("text")) },
		func() (Key, error) {
			return ParsePEM([]byte("-----BEGIN CERTIFICATE-----\nAAAA\n-----END CERTIFICATE-----\n"))
		},
		func() (Key, error) { return NewPublicKey("text") },
	} {
		if key, err := made(); !errors.Is(err, ErrKey) {
			t.Errorf("%v, %v", key, err)
		}
	}
	key := secretOf(t, secret)
	for _, algorithms := range [][]string{nil, {"HS257"}, {"none"}} {
		if _, err := NewVerifier(key, algorithms); !errors.Is(err, ErrOption) {
			t.Errorf("%v: %v", algorithms, err)
		}
	}
	if _, err := NewVerifier(Key{}, []string{"HS256"}); !errors.Is(err, ErrKey) {
		t.Error(err)
	}
	if text := fmt.Sprintf("%v %+v %#v", key, key, key); strings.Contains(text, "0123") || strings.Contains(text, "48, 49") {
		t.Error(text)
	}
}

func headerOf(t *testing.T, token *Token) map[string]any {
	t.Helper()
	header, err := token.Header()
	if err != nil {
		t.Fatal(err)
	}
	return header
}

const vectors = "../../crates/jwt_vectors/data/"

// rowsOf calls a function with the lines of a file.
func rowsOf(t *testing.T, path string, each func(line []byte)) {
	t.Helper()
	file, err := os.Open(path)
	if err != nil {
		t.Fatal(err)
	}
	defer file.Close()
	lines := bufio.NewScanner(file)
	lines.Buffer(nil, 1<<20)
	for lines.Scan() {
		each(lines.Bytes())
	}
	if err := lines.Err(); err != nil {
		t.Fatal(err)
	}
}

type row struct {
	Call, Token string
	Set         json.RawMessage
	Key         struct{ Jwk json.RawMessage }
	Validation  map[string]json.RawMessage
	Now         int64
	Want        struct {
		Ok *struct{ Claims, Header map[string]any }
	}
}

// TestAllAlgorithms has the tokens of all algorithms, which Python's cryptography signed, with a key and with a set.
func TestAllAlgorithms(t *testing.T) {
	seen := map[string]bool{}
	rowsOf(t, vectors+"standard.jsonl", func(line []byte) {
		var it row
		if json.Unmarshal(line, &it) != nil || it.Want.Ok == nil || len(it.Validation) != 1 {
			return
		}
		key, err := ParseJWKSet(it.Set)
		if it.Call == "decode" && it.Key.Jwk != nil {
			key, err = ParseJWK(it.Key.Jwk)
		} else if it.Call != "decode_with_set" {
			return
		}
		if err != nil {
			t.Fatal(err)
		}
		algorithm := it.Want.Ok.Header["alg"].(string)
		token, err := Parse(it.Token, key, []string{algorithm}, at(it.Now))
		if err != nil || headerOf(t, token)["alg"] != algorithm {
			t.Errorf("%s: %v", algorithm, err)
			return
		}
		var claims struct{ Sub, Company string }
		if err := token.Claims(&claims); err != nil || claims.Sub != "b@b.com" || claims.Company != "ACME" {
			t.Errorf("%s: %v %v", algorithm, claims, err)
		}
		seen[algorithm] = true
	})
	if len(seen) != 12 {
		t.Errorf("the rows have %v alone", seen)
	}
}

// TestPEM has a key that Python's cryptography wrote, and a token by another one (RFC 7515 appendix A.3).
func TestPEM(t *testing.T) {
	key, err := ParsePEM([]byte("-----BEGIN PUBLIC KEY-----\nMFkwEwYHKoZIzj0CAQYIKoZIzj0DAQcDQgAEcNoCzyOJM488bjKBVHt5l/ZLeJVc\n" +
		"0MznCQTwJlkzXa2vw96gkOu6Sd+a4YJAuf9SNLVeTTvyRVkB9PQrdF6zRA==\n-----END PUBLIC KEY-----\n"))
	if err != nil {
		t.Fatal(err)
	}
	if _, err := parse(t, joesToken, key, []string{"ES256"}); !errors.Is(err, ErrSignature) {
		t.Error(err)
	}
	if _, err := parse(t, joesToken, key, []string{"HS256"}); !errors.Is(err, ErrKey) {
		t.Error(err)
	}
	if _, err := parse(t, signed(`{"alg":"HS256"}`, `{"exp":1700000001}`, secret), key, []string{"HS256"}); !errors.Is(err, ErrKey) {
		t.Error(err)
	}
}

// TestSign has a token that reads back, and one that Go's hmac signs alike.
func TestSign(t *testing.T) {
	token, err := Sign(map[string]any{"exp": 1700000001, "sub": "x"}, secret, "HS256", map[string]any{"kid": "a"})
	if want := signed(`{"alg":"HS256","kid":"a","typ":"JWT"}`, `{"exp":1700000001,"sub":"x"}`, secret); err != nil || token != want {
		t.Errorf("%v, %v", token, err)
	}
	read, err := parse(t, token, secretOf(t, secret), []string{"HS256"})
	if err != nil || headerOf(t, read)["kid"] != "a" || string(read.RawClaims()) != `{"exp":1700000001,"sub":"x"}` {
		t.Errorf("%v, %v", read, err)
	}
	for _, it := range []struct {
		claims    any
		secret    []byte
		algorithm string
		want      error
	}{
		{map[string]any{}, nil, "HS256", ErrKey},
		{map[string]any{}, secret, "RS256", ErrAlgorithm},
		{map[string]any{}, secret, "ES256", ErrAlgorithm},
		{[]any{}, secret, "HS256", ErrOption},
		{map[string]any{}, secret, "none", ErrOption},
		{"text", secret, "HS256", ErrOption},
		{make(chan int), secret, "HS256", ErrOption},
		{json.RawMessage(`{"exp":1,"exp":2}`), secret, "HS256", ErrOption},
		{json.RawMessage(`{"a":[{"b":1,"\u0062":2}]}`), secret, "HS256", ErrOption},
		{[]byte(`{"a":1}x`), secret, "HS256", ErrOption},
	} {
		if _, err := Sign(it.claims, it.secret, it.algorithm, nil); !errors.Is(err, it.want) {
			t.Errorf("%v: %v, not %v", it, err, it.want)
		}
	}
}

// TestSignedBytes has claims whose bytes are signed, and returned, as they are: floats, large integers, order and spaces stay. Go's hmac signs
// the same bytes alike.
func TestSignedBytes(t *testing.T) {
	header := `{"alg":"HS256","typ":"JWT"}`
	type ordered struct {
		Z   float64 `json:"z"`
		Exp int64   `json:"exp"`
		A   uint64  `json:"a"`
	}
	large, _ := new(big.Int).SetString("123456789012345678901234567890", 10)
	for _, it := range []struct {
		claims any
		text   string
	}{
		{ordered{1.5, 1700000001, 1 << 63}, `{"z":1.5,"exp":1700000001,"a":9223372036854775808}`},
		{map[string]any{"exp": 1700000001, "price": 1e-7, "n": large}, `{"exp":1700000001,"n":123456789012345678901234567890,"price":1e-7}`},
		{json.RawMessage(" {\"exp\": 1700000001,\n \"n\": 1.10, \"a\": \"\\u0041\" }\r\n"), " {\"exp\": 1700000001,\n \"n\": 1.10, \"a\": \"\\u0041\" }\r\n"},
		{[]byte("{\"z\":-0,\t\"exp\":1700000001,\"e\":1E2}"), "{\"z\":-0,\t\"exp\":1700000001,\"e\":1E2}"},
		{map[string]any{"exp": 1700000001, "text": "<&>"}, `{"exp":1700000001,"text":"\u003c\u0026\u003e"}`},
	} {
		token, err := Sign(it.claims, secret, "HS256", nil)
		if err != nil || token != signed(header, it.text, secret) {
			t.Errorf("%s: %s, %v", it.text, token, err)
			continue
		}
		read, err := parse(t, token, secretOf(t, secret), []string{"HS256"})
		if err != nil || string(read.RawClaims()) != it.text {
			t.Errorf("%s: %s, %v", it.text, read.RawClaims(), err)
		}
		made, err := NewSigner(edKey, "EdDSA")
		if err != nil {
			t.Fatal(err)
		}
		token, err = made.Sign(it.claims)
		input, noInput := NewSigningInput(it.claims, "EdDSA", nil)
		want := part([]byte(`{"alg":"EdDSA","typ":"JWT"}`)) + "." + part([]byte(it.text))
		if err != nil || noInput != nil || !strings.HasPrefix(token, want+".") || string(input.Message) != want {
			t.Errorf("%s: %s, %v, %v", it.text, token, err, noInput)
		}
	}
}

// TestRawClaims has claims of other issuers. They are returned as they were signed, unless an object has a name twice.
func TestRawClaims(t *testing.T) {
	for claims, want := range map[string]string{
		`{"z":1.10,"exp":1700000001,"n":18446744073709551616,"a":1E300}`:   "",
		"{ \"exp\" : 1700000001 ,\r\n \"a\" : { } }":                       "",
		`{"exp":1,"z":2.50,"exp":1700000001,"a":100000000000000000000000}`: `{"a":1e+23,"exp":1700000001,"z":2.5}`,
		`{"exp":1700000001,"a":{"b":1,"\u0062":2,"a":3}}`:                  `{"a":{"a":3,"b":2},"exp":1700000001}`,
	} {
		if want == "" {
			want = claims
		}
		read, err := parse(t, signed(`{"alg":"HS256"}`, claims, secret), secretOf(t, secret), []string{"HS256"})
		if err != nil || string(read.RawClaims()) != want {
			t.Errorf("%s: %s, %v", claims, read.RawClaims(), err)
		}
	}
}
