package jwt

import (
	"crypto/ecdsa"
	"crypto/ed25519"
	"crypto/elliptic"
	"crypto/rand"
	"crypto/sha256"
	"encoding/base64"
	"encoding/hex"
	"encoding/json"
	"errors"
	"math/big"
	"strings"
	"testing"
)

// RFC 7515 appendix A.3
const (
	joesPayload = "eyJpc3MiOiJqb2UiLA0KICJleHAiOjEzMDA4MTkzODAsDQogImh0dHA6Ly9leGFtcGxlLmNvbS9pc19yb290Ijp0cnVlfQ"
	joesToken   = "eyJhbGciOiJFUzI1NiJ9." + joesPayload + ".DtEhU3ljbEg8L38VWAfUAqOyKAM6-Xx-F4GawxaepmXFCgfTjDxw5djxLa8ISlSApmWQxfKTUJqPP3-Kg6NU1Q"
	joesX       = "f83OJ3D2xF1Bg8vub9tLe1gHMzV76e8Tus9uPHvRVEU"
	joesY       = "x_FEzRu9m36HLN_tue659LNpXW6pCyStikYjKIWI5a0"
	joesKey     = `{"kty":"EC","crv":"P-256","x":"` + joesX + `","y":"` + joesY + `"}`
	joesClaims  = "{\"iss\":\"joe\",\r\n \"exp\":1300819380,\r\n \"http://example.com/is_root\":true}"
	joesTime    = 1300819379
)

func signatureOf(t *testing.T, token string) Signature {
	t.Helper()
	signature, err := UnverifiedSignature(token)
	if err != nil {
		t.Fatal(err)
	}
	return signature
}

func numberIn(text string) *big.Int {
	bytes, _ := base64.RawURLEncoding.DecodeString(text)
	return new(big.Int).SetBytes(bytes)
}

// isJoes returns whether crypto/ecdsa accepts a signature by the key of RFC 7515 appendix A.3.
func isJoes(signature Signature) bool {
	key := ecdsa.PublicKey{Curve: elliptic.P256(), X: numberIn(joesX), Y: numberIn(joesY)}
	digest := sha256.Sum256(signature.Message)
	r, s := new(big.Int).SetBytes(signature.Bytes[:32]), new(big.Int).SetBytes(signature.Bytes[32:])
	return ecdsa.Verify(&key, digest[:], r, s)
}

// changed returns a copy of a signature with a change.
func changed(signature Signature, change func(*Signature)) Signature {
	signature.Message = append([]byte(nil), signature.Message...)
	signature.Bytes = append([]byte(nil), signature.Bytes...)
	change(&signature)
	return signature
}

// TestVerdict has a token whose signature crypto/ecdsa checks, and tokens, signatures and verdicts that do not belong together.
func TestVerdict(t *testing.T) {
	checked := signatureOf(t, joesToken)
	verdict := isJoes(checked)
	if checked.Algorithm != "ES256" || string(checked.Message) != joesToken[:strings.LastIndex(joesToken, ".")] || !verdict {
		t.Fatal(checked)
	}
	other := func(change func(*Signature)) Signature { return changed(checked, change) }
	for _, it := range []struct {
		name       string
		token      string
		checked    Signature
		verdict    bool
		algorithms []string
		with       []Option
		want       error
	}{
		{"genuine", joesToken, checked, verdict, []string{"ES256"}, nil, nil},
		{"by the issuer", joesToken, checked, verdict, []string{"ES256"}, []Option{WithIssuer("joe")}, nil},
		{"by another issuer", joesToken, checked, verdict, []string{"ES256"}, []Option{WithIssuer("ann")}, ErrIssuer},
		{"expired", joesToken, checked, verdict, []string{"ES256"}, []Option{at(joesTime + 1)}, ErrExpired},
		{"not genuine", joesToken, checked, false, []string{"ES256"}, nil, ErrSignature},
		{"of another payload", strings.Replace(joesToken, joesPayload, "e30", 1), checked, verdict, []string{"ES256"}, nil, ErrSignature},
		{"another message", joesToken, other(func(it *Signature) { it.Message[30] ^= 1 }), verdict, []string{"ES256"}, nil, ErrSignature},
		{"another signature", joesToken, other(func(it *Signature) { it.Bytes[0] ^= 1 }), verdict, []string{"ES256"}, nil, ErrSignature},
		{"no signature", joesToken, Signature{Algorithm: "ES256"}, verdict, []string{"ES256"}, nil, ErrSignature},
		{"another algorithm", joesToken, other(func(it *Signature) { it.Algorithm = "ES384" }), verdict, []string{"ES256"}, nil, ErrAlgorithm},
		{"no algorithm", joesToken, other(func(it *Signature) { it.Algorithm = "" }), verdict, []string{"ES256"}, nil, ErrAlgorithm},
		{"an unknown algorithm", joesToken, other(func(it *Signature) { it.Algorithm = "\xff" }), verdict, []string{"ES256"}, nil, ErrAlgorithm},
		{"one that is not accepted", joesToken, checked, verdict, []string{"ES384"}, nil, ErrAlgorithm},
		{"two families", joesToken, checked, verdict, []string{"ES256", "HS256"}, nil, ErrAlgorithm},
		{"no such algorithm", joesToken, checked, verdict, []string{"ES257"}, nil, ErrOption},
		{"without a required claim", joesToken, checked, verdict, []string{"ES256"}, []Option{WithRequired("jti")}, ErrMissingClaim},
		{"with a required claim", joesToken, checked, verdict, []string{"ES256"}, []Option{WithRequired("http://example.com/is_root")}, nil},
		{"without a string", joesToken, checked, verdict, []string{"ES256"}, []Option{WithStrings("http://example.com/is_root")}, ErrMalformedClaim},
		{"no token", "a.b", checked, verdict, []string{"ES256"}, nil, ErrMalformed},
	} {
		token, err := ParseByVerdict(it.token, it.checked, it.verdict, it.algorithms, atUnless(joesTime, it.with)...)
		if !errors.Is(err, it.want) || (token != nil) != (it.want == nil) {
			t.Errorf("%s: %v, %v, not %v", it.name, token, err, it.want)
		}
		if token != nil && (string(token.RawClaims()) != joesClaims || headerOf(t, token)["alg"] != "ES256") {
			t.Errorf("%s: %s", it.name, token.RawClaims())
		}
	}
}

// TestUnverified has the rows of signatures and headers that are read of tokens.
func TestUnverified(t *testing.T) {
	seen := map[bool]int{}
	rowsOf(t, vectors+"tokens_by_verdict.jsonl", func(line []byte) {
		var it struct {
			Call, Token string
			Want        struct {
				Ok *struct {
					Header map[string]any
					Signed struct{ Message, Signature string }
				}
			}
		}
		if json.Unmarshal(line, &it) != nil || it.Call != "signed_part" {
			return
		}
		seen[it.Want.Ok != nil]++
		signature, err := UnverifiedSignature(it.Token)
		if it.Want.Ok == nil {
			if err == nil {
				t.Errorf("%s: %v", it.Token, signature)
			}
			return
		}
		header, headerErr := UnverifiedHeader(it.Token)
		if err != nil || headerErr != nil || signature.Algorithm != it.Want.Ok.Header["alg"] || header["alg"] != signature.Algorithm ||
			hex.EncodeToString(signature.Message) != it.Want.Ok.Signed.Message || hex.EncodeToString(signature.Bytes) != it.Want.Ok.Signed.Signature {
			t.Errorf("%s: %v, %v, %v", it.Token, signature, err, headerErr)
		}
	})
	if seen[true] < 3 || seen[false] < 3 {
		t.Error(seen)
	}
}

// TestSigningInput has claims that a key signs which the library never sees, and which its public key verifies.
func TestSigningInput(t *testing.T) {
	secretly, err := ecdsa.GenerateKey(elliptic.P256(), rand.Reader)
	if err != nil {
		t.Fatal(err)
	}
	public, err := NewPublicKey(&secretly.PublicKey)
	if err != nil {
		t.Fatal(err)
	}
	input, err := NewSigningInput(json.RawMessage(joesClaims), "ES256", map[string]any{"kid": "a"})
	if err != nil || input.Algorithm != "ES256" {
		t.Fatal(input, err)
	}
	digest := sha256.Sum256(input.Message)
	der, err := ecdsa.SignASN1(rand.Reader, secretly, digest[:])
	if err != nil {
		t.Fatal(err)
	}
	signature, noSignature := ECDSASignature(der, "ES256")
	text, err := input.Token(signature)
	if noSignature != nil || err != nil {
		t.Fatal(noSignature, err)
	}
	token, err := Parse(text, public, []string{"ES256"}, at(joesTime))
	if err != nil || string(token.RawClaims()) != joesClaims || headerOf(t, token)["kid"] != "a" || headerOf(t, token)["typ"] != "JWT" {
		t.Error(token, err)
	}
	for name, it := range map[string][]byte{"in DER": der, "cut": signature[:63], "none": nil, "longer": append(signature, 0)} {
		if text, err := input.Token(it); text != "" || !errors.Is(err, ErrOption) {
			t.Errorf("%s: %v, %v", name, text, err)
		}
	}
	signature[5] ^= 1
	if text, err = input.Token(signature); err != nil {
		t.Error(err)
	}
	if _, err := Parse(text, public, []string{"ES256"}, at(joesTime)); !errors.Is(err, ErrSignature) {
		t.Error(err)
	}
}

// TestSigningInputArguments has what can't be signed.
func TestSigningInputArguments(t *testing.T) {
	for _, it := range []struct {
		claims    any
		algorithm string
		header    map[string]any
		want      error
	}{
		{json.RawMessage(`{"exp":1.5}`), "ES256", nil, ErrOption},
		{json.RawMessage(`{"a":1,"a":1}`), "ES256", nil, ErrOption},
		{json.RawMessage(`[]`), "ES256", nil, ErrOption},
		{json.RawMessage(`{`), "ES256", nil, ErrOption},
		{map[string]any{"a": "\xff"}, "ES256", nil, ErrOption},
		{map[string]any{}, "ES257", nil, ErrOption},
		{map[string]any{}, "", nil, ErrOption},
		{map[string]any{}, "ES256", map[string]any{"alg": "ES384"}, ErrOption},
	} {
		if input, err := NewSigningInput(it.claims, it.algorithm, it.header); input != nil || !errors.Is(err, it.want) {
			t.Errorf("%v: %v, %v, not %v", it, input, err, it.want)
		}
	}
}

// TestChangedInputs has inputs that NewSigningInput did not make, or that were changed.
func TestChangedInputs(t *testing.T) {
	var none *SigningInput
	for _, it := range []*SigningInput{none, {}, {Algorithm: "ES256", Message: []byte("e30.e30")}} {
		if token, err := it.Token(make([]byte, 64)); token != "" || !errors.Is(err, ErrOption) {
			t.Errorf("%v, %v", token, err)
		}
	}
	input, err := NewSigningInput(map[string]any{"a": 1}, "ES384", nil)
	if err != nil {
		t.Fatal(err)
	}
	if _, err := input.Token(make([]byte, 64)); !errors.Is(err, ErrOption) {
		t.Error(err)
	}
	for _, algorithm := range []string{"RS256", "RS384", "RS512", "PS256", "PS384", "PS512"} {
		rsa, err := NewSigningInput(map[string]any{"a": 1}, algorithm, nil)
		if err != nil {
			t.Fatal(err)
		}
		if token, err := rsa.Token(nil); token != "" || !errors.Is(err, ErrOption) {
			t.Errorf("%s: %v, %v", algorithm, token, err)
		}
		for _, size := range []int{256, 384, 512, 2048} {
			if _, err := rsa.Token(make([]byte, size)); err != nil {
				t.Errorf("%s, %d bytes: %v", algorithm, size, err)
			}
		}
	}
	for _, it := range []string{"e30.e30", "", ".", string(input.Message) + ".", string(input.Message[1:])} {
		input.Message = []byte(it)
		if token, err := input.Token(make([]byte, 96)); token != "" || !errors.Is(err, ErrOption) {
			t.Errorf("%s: %v, %v", it, token, err)
		}
	}
}

// TestECDSASignature has bytes that are not a signature in DER, and other algorithms. TestSigningInput has a signature.
func TestECDSASignature(t *testing.T) {
	for _, it := range []struct {
		der       []byte
		algorithm string
		want      error
	}{
		{[]byte("x"), "ES256", ErrSignature},
		{nil, "ES384", ErrSignature},
		{[]byte("x"), "RS256", ErrAlgorithm},
		{[]byte("x"), "ES257", ErrAlgorithm},
	} {
		if signature, err := ECDSASignature(it.der, it.algorithm); signature != nil || !errors.Is(err, it.want) {
			t.Errorf("%v: %v, %v", it, signature, err)
		}
	}
}

// TestMessages has the messages of tokens with all algorithms, and a token with Go's Ed25519.
func TestMessages(t *testing.T) {
	for _, it := range []string{"HS256", "HS384", "HS512", "RS256", "RS384", "RS512", "PS256", "PS384", "PS512", "ES256", "ES384", "EdDSA"} {
		input, err := NewSigningInput(json.RawMessage(joesClaims), it, map[string]any{"kid": "a"})
		want := part([]byte(`{"alg":"`+it+`","kid":"a","typ":"JWT"}`)) + "." + joesPayload
		if err != nil || string(input.Message) != want || input.Algorithm != it {
			t.Errorf("%s: %v, %v", it, input, err)
		}
	}
	input, err := NewSigningInput(map[string]any{"exp": 1700000001}, "EdDSA", map[string]any{"kid": "a"})
	if err != nil {
		t.Fatal(err)
	}
	token, err := input.Token(ed25519.Sign(signer("a"), input.Message))
	if err != nil {
		t.Fatal(err)
	}
	public, err := NewPublicKey(signer("a").Public())
	if err != nil {
		t.Fatal(err)
	}
	if _, err := parse(t, token, public, eddsa); err != nil {
		t.Error(err)
	}
}

// TestThumbprints has the rows of thumbprints, those of RFC 7638 and RFC 8037 among them.
func TestThumbprints(t *testing.T) {
	bits := map[string]uint32{"SHA256": 256, "SHA384": 384, "SHA512": 512}
	seen := map[string]int{}
	rowsOf(t, vectors+"thumbprints.jsonl", func(line []byte) {
		var it struct {
			Call, Hash, From string
			Jwk              json.RawMessage
			Want             struct{ Ok *string }
		}
		if json.Unmarshal(line, &it) != nil || it.Call != "Jwk::thumbprint" || it.Jwk == nil || it.Want.Ok == nil || !strings.HasPrefix(it.From, "RFC") {
			return
		}
		text, err := Thumbprint(it.Jwk, bits[it.Hash])
		if _, refused := ParseJWK(it.Jwk); refused == nil {
			seen[it.Hash]++
		} else if seen["refused"]++; !errors.Is(err, ErrKey) || text != "" {
			t.Errorf("%s: %v, %v", line, text, err)
		} else {
			text, err = Thumbprint([]byte(`{"keys":[`+string(it.Jwk)+`]}`), bits[it.Hash])
		}
		if err != nil || text != *it.Want.Ok {
			t.Errorf("%s: %v, %v", line, text, err)
		}
	})
	if seen["SHA256"] < 3 || seen["SHA384"] < 1 || seen["SHA512"] < 1 || seen["refused"] < 4 {
		t.Error(seen)
	}
	for _, it := range []struct {
		jwk  string
		bits uint32
		want error
	}{
		{joesKey, 0, ErrAlgorithm},
		{joesKey, 255, ErrAlgorithm},
		{`{"kty":"other"}`, 256, ErrKey},
		{`{"keys":[` + joesKey + `,` + joesKey + `]}`, 256, ErrKey},
		{`{"keys":[]}`, 256, ErrKey},
		{`{"keys":[5]}`, 256, ErrKey},
		{"", 256, ErrKey},
	} {
		if text, err := Thumbprint([]byte(it.jwk), it.bits); text != "" || !errors.Is(err, it.want) {
			t.Errorf("%v: %v, %v", it, text, err)
		}
	}
}

// TestJoe has the token of RFC 7515 appendix A.3 by its key, and what does not belong to it.
func TestJoe(t *testing.T) {
	key, err := ParseJWK([]byte(joesKey))
	if err != nil {
		t.Fatal(err)
	}
	token, err := Parse(joesToken, key, []string{"ES256"}, at(joesTime))
	if err != nil || string(token.RawClaims()) != joesClaims {
		t.Error(token, err)
	}
	for _, it := range []struct {
		token, key string
		algorithms []string
		want       error
	}{
		{strings.Replace(joesToken, "DtEh", "DtEi", 1), joesKey, []string{"ES256"}, ErrSignature},
		{joesToken, `{"kty":"oct","k":"c2VjcmV0"}`, []string{"ES256"}, ErrKey},
		{joesToken, joesKey, []string{"ES384"}, ErrKey},
	} {
		key, err := ParseJWK([]byte(it.key))
		if err != nil {
			t.Fatal(err)
		}
		if _, err := Parse(it.token, key, it.algorithms, at(joesTime)); !errors.Is(err, it.want) {
			t.Errorf("%v: %v", it, err)
		}
	}
}
