package jwt

import (
	"context"
	"crypto"
	"crypto/x509"
	"encoding/json"
	"encoding/pem"
	"errors"
	"fmt"
	"math"
	"runtime"
	"strings"
	"testing"
	"time"
)

// issuers have a key of each family in one set.
var issuers = []struct {
	name, algorithm string
	key             crypto.Signer
}{
	{"https://rsa.example", "RS256", rsaKey}, {"https://ec.example", "ES256", p256Key}, {"https://ed.example", "EdDSA", edKey},
}

var threeFamilies = []string{"RS256", "ES256", "EdDSA"}

// jwksOf returns the keys of the issuers, whose kids are their names, with their alg or without.
func jwksOf(t *testing.T, hasAlg bool) []string {
	t.Helper()
	keys := []string{}
	for _, it := range issuers {
		signer, err := NewSigner(it.key, it.algorithm, WithKeyID(it.name))
		if err != nil {
			t.Fatal(err)
		}
		jwk, err := signer.JWK()
		if err != nil {
			t.Fatal(err)
		}
		text := string(jwk)
		if !hasAlg {
			text = strings.Replace(text, fmt.Sprintf(`"alg":%q,`, it.algorithm), "", 1)
		}
		keys = append(keys, text)
	}
	return keys
}

func setOfJWKs(keys ...string) string { return `{"keys":[` + strings.Join(keys, ",") + `]}` }

// issuedBy returns a token that names this kid, signed with another key.
func issuedBy(t *testing.T, key crypto.Signer, algorithm, kid, issuer string) string {
	t.Helper()
	signer, err := NewSigner(key, algorithm, WithKeyID(kid))
	if err != nil {
		t.Fatal(err)
	}
	token, err := signer.Sign(RegisteredClaims{Issuer: issuer, Subject: "ada", ExpiresAt: NewNumericDate(time.Unix(now+1, 0))})
	if err != nil {
		t.Fatal(err)
	}
	return token
}

// callsOf returns how many calls of C a function makes: the least number of many times, since other goroutines make some too.
func callsOf(of func()) int64 {
	least := int64(math.MaxInt64)
	for i := 0; i < 50; i++ {
		before := runtime.NumCgoCall()
		of()
		if calls := runtime.NumCgoCall() - before; calls < least {
			least = calls
		}
	}
	return least
}

// TestIssuersOfOneSet has one Verifier and one Middleware for issuers with keys of three families. The kid decides which key verifies a token,
// and the library verifies it in one call.
func TestIssuersOfOneSet(t *testing.T) {
	for _, hasAlg := range []bool{true, false} {
		text := setOfJWKs(jwksOf(t, hasAlg)...)
		stays, err := ParseJWKSet([]byte(text))
		if err != nil {
			t.Fatal(err)
		}
		until, cancel := context.WithCancel(context.Background())
		defer cancel()
		rotates, err := NewKeySet(until, func(context.Context) ([]byte, error) { return []byte(text), nil })
		if err != nil {
			t.Fatal(err)
		}
		for _, key := range []Key{stays, rotates.Key()} {
			verifier, err := NewVerifier(key, threeFamilies, at(now), WithIssuer(issuers[0].name, issuers[1].name, issuers[2].name))
			if err != nil {
				t.Fatal(err)
			}
			guarded, _, logged := guarding(t, verifier)
			for i, it := range issuers {
				token, other := issuedBy(t, it.key, it.algorithm, it.name, it.name), issuers[(i+1)%len(issuers)]
				verified, err := verifier.Parse(token)
				var claims RegisteredClaims
				if err != nil || verified.Claims(&claims) != nil || claims.Issuer != it.name || headerOf(t, verified)["alg"] != it.algorithm {
					t.Errorf("%s: %v, %v", it.algorithm, claims, err)
					continue
				}
				if got := asked(guarded, "Authorization", "Bearer "+token); got.Code != 200 {
					t.Error(it.algorithm, got.Code, *logged)
				}
				if calls := callsOf(func() { _, _ = verifier.Parse(token) }); calls != 1 {
					t.Errorf("%s: %d calls", it.algorithm, calls)
				}
				if calls := callsOf(func() { asked(guarded, "Authorization", "Bearer "+token) }); calls != 1 {
					t.Errorf("%s: %d calls of Middleware", it.algorithm, calls)
				}
				withHeader := func() {
					if verified, err := verifier.Parse(token); err == nil {
						_, _ = verified.Header()
					}
				}
				if calls := callsOf(withHeader); calls != 2 {
					t.Errorf("%s: %d calls with the header", it.algorithm, calls)
				}
				// the key of another issuer, and a key of another family that the kid names
				wants(t, verifier, issuedBy(t, it.key, it.algorithm, other.name, it.name), ErrAlgorithm)
				wants(t, verifier, issuedBy(t, it.key, it.algorithm, "https://evil", it.name), ErrUnknownKey)
				wants(t, verifier, issuedBy(t, it.key, it.algorithm, it.name, "https://evil"), ErrIssuer)
			}
			wants(t, verifier, issuedBy(t, newRSA(2048), "RS256", issuers[0].name, issuers[0].name), ErrSignature)
			wants(t, verifier, issuedBy(t, rsaKey, "PS256", issuers[0].name, issuers[0].name), ErrAlgorithm)
			wants(t, verifier, issuedBy(t, rsaKey, "RS384", issuers[0].name, issuers[0].name), ErrAlgorithm)
		}
	}
}

// TestRotationToAnotherFamily has an issuer that changes from Ed25519 to RSA, and one Verifier for both.
func TestRotationToAnotherFamily(t *testing.T) {
	server := serve(t, says(setOf("a")))
	set, _ := following(t, server.uri)
	verifier, err := NewVerifier(set.Key(), threeFamilies, at(now))
	if err != nil {
		t.Fatal(err)
	}
	later := issuedBy(t, rsaKey, "RS256", issuers[0].name, "")
	wants(t, verifier, tokenOf("a", "a"), nil)
	wants(t, verifier, later, ErrUnknownKey)
	server.answer.Store(says(setOfJWKs(jwksOf(t, true)[0])))
	time.Sleep(soon + 10*time.Millisecond)
	wants(t, verifier, later, nil)
	wants(t, verifier, tokenOf("a", "a"), ErrUnknownKey)
}

// TestPublicTextsAsSecrets has tokens with HS256 whose secret is a text of the RSA key that they name. They are refused, also by a Verifier
// that accepts HS256 by another key of the set.
func TestPublicTextsAsSecrets(t *testing.T) {
	der, err := x509.MarshalPKIXPublicKey(&rsaKey.PublicKey)
	if err != nil {
		t.Fatal(err)
	}
	block := &pem.Block{Type: "PUBLIC KEY", Bytes: der}
	pkcs1 := x509.MarshalPKCS1PublicKey(&rsaKey.PublicKey)
	texts := map[string][]byte{
		"PEM": pem.EncodeToMemory(block), "PEM without the last newline": []byte(strings.TrimSpace(string(pem.EncodeToMemory(block)))), "DER": der,
		"PKCS #1": pkcs1, "PKCS #1 in PEM": pem.EncodeToMemory(&pem.Block{Type: "RSA PUBLIC KEY", Bytes: pkcs1}), "JSON": []byte(jwksOf(t, false)[0]),
		"the modulus": rsaKey.N.Bytes(), "the modulus in base64url": []byte(part(rsaKey.N.Bytes())), "the other secret": secret, "nothing": nil,
	}
	for _, hasAlg := range []bool{true, false} {
		key, err := ParseJWKSet([]byte(setOfJWKs(append(jwksOf(t, hasAlg), jwkOf(secret))...)))
		if err != nil {
			t.Fatal(err)
		}
		for _, algorithms := range [][]string{threeFamilies, {"RS256"}, {"HS256", "RS256"}, append([]string{"HS256"}, threeFamilies...)} {
			verifier, err := NewVerifier(key, algorithms, at(now))
			if err != nil {
				t.Fatal(err)
			}
			header := fmt.Sprintf(`{"alg":"HS256","kid":%q}`, issuers[0].name)
			for name, text := range texts {
				if _, err := verifier.Parse(signed(header, `{"exp":1700000001}`, text)); !errors.Is(err, ErrAlgorithm) {
					t.Errorf("%q, %s: %v", algorithms, name, err)
				}
			}
			want := ErrAlgorithm
			if algorithms[0] == "HS256" {
				want = nil
			}
			wants(t, verifier, signed(`{"alg":"HS256","kid":"a"}`, `{"exp":1700000001}`, secret), want)
		}
	}
}

// TestFamilies has lists of several families: a key verifies with the algorithms of its family, and the other algorithms change nothing.
func TestFamilies(t *testing.T) {
	set, noSet := ParseJWKSet([]byte(setOf("a")))
	jwk, noJWK := ParseJWK([]byte(joesKey))
	if noSet != nil || noJWK != nil {
		t.Fatal(noSet, noJWK)
	}
	bySecret := signed(`{"alg":"HS256"}`, `{"exp":1700000001}`, secret)
	for _, it := range []struct {
		key        Key
		algorithms []string
		token      string
		want       error // of NewVerifier, or of Parse
		isMade     bool
	}{
		{secretOf(t, secret), []string{"HS256", "HS384", "HS512"}, bySecret, nil, true},
		{secretOf(t, secret), []string{"HS256", "RS256"}, bySecret, nil, true},
		{secretOf(t, secret), []string{"RS256", "HS256"}, bySecret, nil, true},
		{secretOf(t, secret), []string{"EdDSA", "ES256", "RS256", "HS256"}, bySecret, nil, true},
		{secretOf(t, secret), []string{"HS512", "RS256"}, bySecret, ErrAlgorithm, true},
		{secretOf(t, secret), []string{"RS256", "EdDSA"}, "", ErrKey, false},
		{jwk, []string{"ES256", "EdDSA"}, bySecret, ErrAlgorithm, true},
		{jwk, []string{"ES256", "HS256"}, bySecret, ErrAlgorithm, true},
		{jwk, []string{"HS256", "ES256"}, signed(`{"alg":"HS256"}`, `{"exp":1700000001}`, []byte(joesKey)), ErrAlgorithm, true},
		{jwk, []string{"ES384", "HS256"}, "", ErrKey, false},
		{set, []string{"EdDSA", "ES256"}, tokenOf("a", "a"), nil, true},
		{set, []string{"ES256", "HS256", "EdDSA"}, tokenOf("a", "b"), ErrSignature, true},
		{set, []string{"EdDSA", "EdDSA"}, tokenOf("a", "a"), nil, true},
		{set, []string{"RS256", "ES256", "HS256"}, "", ErrKey, false},
		{set, []string{"EdDSA", "ES512"}, "", ErrOption, false},
	} {
		verifier, err := NewVerifier(it.key, it.algorithms, at(now))
		if it.isMade && err == nil {
			_, err = verifier.Parse(it.token)
		}
		if !errors.Is(err, it.want) || (verifier != nil) != it.isMade {
			t.Errorf("%v: %v, not %v", it.algorithms, err, it.want)
		}
	}
	joe, err := NewVerifier(jwk, threeFamilies, at(joesTime))
	if err != nil {
		t.Fatal(err)
	}
	wants(t, joe, joesToken, nil)
}

// TestAlgorithms compares the names of RFC 7518 section 3.1 and RFC 8037 section 3.1 with the algorithms of the library.
func TestAlgorithms(t *testing.T) {
	for i, it := range []string{"HS256", "HS384", "HS512", "RS256", "RS384", "RS512", "PS256", "PS384", "PS512", "ES256", "ES384", "EdDSA"} {
		if number := numberOf(it); int(number) != i+1 || textOf(3, number) != it {
			t.Errorf("%s: %d, %s", it, number, textOf(3, number))
		}
	}
	for _, it := range []string{"", "none", "hs256", "HS256 ", "HS256\x00", "HS25", "ES512", "\xff"} {
		if number := numberOf(it); number != 0 {
			t.Errorf("%q: %d", it, number)
		}
	}
	if textOf(3, 0) != "" || textOf(3, 13) != "" || textOf(2, 0) != "" || textOf(5, 1) != "" {
		t.Error("there are more")
	}
}

// TestAlgOfKeys has keys of a set whose alg is compared with the list and with the token.
func TestAlgOfKeys(t *testing.T) {
	alg := func(kid, algorithm string) string {
		return strings.Replace(jwkOf(secret), `"kid":"a"`, fmt.Sprintf(`"kid":%q,"alg":%q`, kid, algorithm), 1)
	}
	key, err := ParseJWKSet([]byte(setOfJWKs(alg("512", "HS512"), alg("256", "HS256"))))
	if err != nil {
		t.Fatal(err)
	}
	verifier, err := NewVerifier(key, []string{"HS256", "EdDSA"}, at(now))
	if err != nil {
		t.Fatal(err)
	}
	wants(t, verifier, signed(`{"alg":"HS256","kid":"256"}`, `{"exp":1700000001}`, secret), nil)
	var refused *Error
	_, err = verifier.Parse(signed(`{"alg":"HS256","kid":"512"}`, `{"exp":1700000001}`, secret))
	if !errors.Is(err, ErrAlgorithm) || !errors.As(err, &refused) || refused.Test != "KeyAlgMatches" {
		t.Error(err)
	}
}

// TestNoUsableKey has sets whose keys verify with no listed algorithm: NewVerifier makes no verifier.
func TestNoUsableKey(t *testing.T) {
	keys := jwksOf(t, false)
	weak := `{"kty":"RSA","kid":"w","n":"AQAB","e":"AQAB"}`
	for _, it := range []struct {
		keys       []string
		algorithms []string
	}{
		{keys, []string{"HS256"}},
		{keys, []string{"HS256", "ES384"}},
		{keys[:1], []string{"ES256", "EdDSA"}},
		{keys[1:2], []string{"RS256", "EdDSA", "HS256"}},
		{append([]string{weak}, keys[2]), []string{"RS256", "ES256"}},
		{jwksOf(t, true), []string{"RS384", "PS256", "HS256"}},
		{append(jwksOf(t, true)[:1], jwkOf(secret)), []string{"RS512", "EdDSA"}},
	} {
		key, err := ParseJWKSet([]byte(setOfJWKs(it.keys...)))
		if err != nil {
			t.Fatal(err)
		}
		verifier, err := NewVerifier(key, it.algorithms)
		if verifier != nil || !errors.Is(err, ErrKey) || !isStatus(err, noUsableKey) || !strings.Contains(err.Error(), fmt.Sprintf("%q", it.algorithms)) {
			t.Errorf("%q: %v", it.algorithms, err)
		}
	}
}

// TestUnverifiedParts has headers and claims of tokens that this package does not verify, and texts that are not a token.
func TestUnverifiedParts(t *testing.T) {
	for _, it := range []string{"none", "ES512", "ES256K", "RS256", ""} {
		text := part([]byte(fmt.Sprintf(`{"alg":%q,"kid":"a","n":1.5}`, it))) + "." + part([]byte(`{"iss":"b","iss":"ann","exp":1}`)) + "."
		header, err := UnverifiedHeader(text)
		claims, noClaims := UnverifiedClaims(text)
		if err != nil || noClaims != nil || header["alg"] != it || header["kid"] != "a" || header["n"] != 1.5 || claims["iss"] != "ann" || claims["exp"] != 1.0 {
			t.Errorf("%s: %v, %v, %v, %v", it, header, err, claims, noClaims)
		}
	}
	for _, it := range []string{"", "a.b", "..", part([]byte(`[]`)) + "." + part([]byte(`5`)) + ".", part([]byte(`{`)) + "." + part([]byte(`{`)) + ".", "e30=.e30=.", "*.*.*"} {
		header, err := UnverifiedHeader(it)
		claims, noClaims := UnverifiedClaims(it)
		if header != nil || claims != nil || !errors.Is(err, ErrMalformed) || !errors.Is(noClaims, ErrMalformed) {
			t.Errorf("%s: %v, %v, %v, %v", it, header, err, claims, noClaims)
		}
	}
}

// TestCheckClaims compares the error for claims with the error for a token that has these claims.
func TestCheckClaims(t *testing.T) {
	seen := map[error]bool{}
	for _, it := range []struct {
		claims string
		with   []Option
	}{
		{`{"exp":1700000001}`, nil},
		{`{"exp":1700000000}`, nil},
		{`{"exp":1700000000}`, []Option{WithLeeway(5e9)}},
		{`{"exp":1700000000}`, []Option{WithExpired()}},
		{`{"exp":1700000009}`, []Option{WithRemaining(10e9)}},
		{`{"exp":5,"exp":1700000001}`, nil},
		{`{}`, nil},
		{`{}`, []Option{WithoutExpiry()}},
		{`{"exp":1.5}`, nil},
		{`{"exp":"x"}`, []Option{WithoutExpiry()}},
		{`{"exp":1700000001,"nbf":1700000001}`, nil},
		{`{"exp":1700000001,"nbf":1700000001}`, []Option{WithEarly()}},
		{`{"exp":1700000001}`, []Option{WithRequired("nbf")}},
		{`{"exp":1700000001,"aud":"x"}`, nil},
		{`{"exp":1700000001,"aud":["x"]}`, []Option{WithAudience("x", "y")}},
		{`{"exp":1700000001,"aud":"x"}`, []Option{WithAudience("y")}},
		{`{"exp":1700000001,"aud":5}`, []Option{WithAudience("y")}},
		{`{"exp":1700000001,"iss":"x"}`, []Option{WithIssuer("y")}},
		{`{"exp":1700000001,"sub":"x"}`, []Option{WithSubject("y")}},
		{`{"exp":1700000001,"iat":1700000000}`, []Option{WithIssuedAt()}},
		{`{"exp":1700000001,"iat":1700000001}`, []Option{WithIssuedAt()}},
		{`{"exp":1700000001,"nbf":1700000001}`, []Option{WithIssuedAt()}},
		{`{"exp":1700000001,"iat":"x"}`, []Option{WithIssuedAt()}},
		{`{"exp":1700000001,"tenant":"x"}`, []Option{WithRequired("tenant", "role")}},
		{`{"exp":1700000001,"tenant":5}`, []Option{WithStrings("role", "tenant")}},
		{`{"exp":1700000001,"aud":["x"]}`, []Option{WithAudience("x"), WithOneAudience()}},
		{`{"exp":1700000001}`, []Option{WithLeeway(-1)}},
		{`{"exp":1700000001}`, []Option{nil}},
	} {
		want, got := error(nil), CheckClaims([]byte(it.claims), atUnless(now, it.with)...)
		verifier, err := NewVerifier(secretOf(t, secret), []string{"HS256"}, atUnless(now, it.with)...)
		if want = err; err == nil {
			_, want = verifier.Parse(signed(`{"alg":"HS256"}`, it.claims, secret))
		}
		if fmt.Sprint(got) != fmt.Sprint(want) || (got == nil) != (want == nil) {
			t.Errorf("%s: %v, not %v", it.claims, got, want)
		}
		var refused, of *Error
		if errors.As(want, &refused) && (!errors.As(got, &of) || of.Claim != refused.Claim || of.Status != refused.Status || !errors.Is(got, refused.kind)) {
			t.Errorf("%s: %+v, not %+v", it.claims, of, refused)
		} else if refused != nil {
			seen[refused.kind] = true
		}
	}
	if len(seen) != 7 {
		t.Error(seen)
	}
	for _, it := range []string{"", "{", "[]", "null", "5", `{"exp":1700000001}x`} {
		if err := CheckClaims([]byte(it), at(now)); !errors.Is(err, ErrMalformed) {
			t.Errorf("%s: %v", it, err)
		}
	}
	claims, err := json.Marshal(RegisteredClaims{ExpiresAt: NewNumericDate(time.Now().Add(time.Hour))})
	if err != nil || CheckClaims(claims) != nil || !errors.Is(CheckClaims(claims, WithIssuer("x")), ErrMissingClaim) {
		t.Error(string(claims), err)
	}
}
