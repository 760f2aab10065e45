package jwt_test

import (
	"context"
	"crypto"
	"crypto/ecdsa"
	"crypto/ed25519"
	"crypto/elliptic"
	"crypto/rand"
	"crypto/rsa"
	"crypto/sha256"
	"errors"
	"fmt"
	"net/http"
	"net/http/httptest"
	"strings"
	"time"

	"curbsorrel.example/jwt"
)

// A real secret comes from a file, and is random.
var secret = []byte("0123456789abcdef0123456789abcdef")

func Example() {
	key, err := jwt.NewSecretKey(secret)
	if err != nil {
		panic(err)
	}
	verifier, err := jwt.NewVerifier(key, []string{"HS256"}, jwt.WithAudience("web"))
	if err != nil {
		panic(err)
	}
	issued := map[string]any{"sub": "ada", "aud": "web", "exp": time.Now().Add(time.Minute).Unix()}
	text, err := jwt.Sign(issued, secret, "HS256", nil)
	if err != nil {
		panic(err)
	}
	token, err := verifier.Parse(text)
	if err != nil {
		panic(err)
	}
	var claims struct {
		Subject string `json:"sub"`
	}
	if err := token.Claims(&claims); err != nil {
		panic(err)
	}
	fmt.Println(claims.Subject)
	// Output: ada
}

func ExampleNewVerifier() {
	rsaKey, _ := rsa.GenerateKey(rand.Reader, 2048)
	ecKey, _ := ecdsa.GenerateKey(elliptic.P256(), rand.Reader)
	_, edKey, _ := ed25519.GenerateKey(nil)
	keys, tokens := []string{}, []string{}
	for algorithm, key := range map[string]crypto.Signer{"RS256": rsaKey, "ES256": ecKey, "EdDSA": edKey} {
		signer, err := jwt.NewSigner(key, algorithm, jwt.WithKeyID(algorithm))
		if err != nil {
			panic(err)
		}
		jwk, _ := signer.JWK()
		token, _ := signer.Sign(map[string]any{"exp": 2532524891})
		keys, tokens = append(keys, string(jwk)), append(tokens, token)
	}
	// one set with keys of three families, and one verifier
	set, err := jwt.ParseJWKSet([]byte(`{"keys":[` + strings.Join(keys, ",") + `]}`))
	if err != nil {
		panic(err)
	}
	verifier, err := jwt.NewVerifier(set, []string{"RS256", "ES256", "EdDSA"})
	if err != nil {
		panic(err)
	}
	for _, it := range tokens {
		_, err := verifier.Parse(it)
		fmt.Println(err)
	}
	// Output:
	// <nil>
	// <nil>
	// <nil>
}

func ExampleUnverifiedClaims() {
	text, _ := jwt.Sign(map[string]any{"iss": "https://login.example", "exp": 2532524891}, secret, "HS256", nil)
	claims, err := jwt.UnverifiedClaims(text)
	if err != nil {
		panic(err)
	}
	// anyone can have written iss
	fmt.Println(claims["iss"])
	// Output: https://login.example
}

func ExampleByIssuer() {
	issuers := []string{"https://login.example", "https://partner.example"}
	signers, verifiers := []*jwt.Signer{}, []*jwt.Verifier{}
	for _, issuer := range issuers {
		_, private, _ := ed25519.GenerateKey(nil)
		signer, err := jwt.NewSigner(private, "EdDSA", jwt.WithKeyID("1"))
		if err != nil {
			panic(err)
		}
		jwk, _ := signer.JWK()
		set, err := jwt.ParseJWKSet([]byte(`{"keys":[` + string(jwk) + `]}`))
		if err != nil {
			panic(err)
		}
		verifier, err := jwt.NewVerifier(set, []string{"EdDSA"}, jwt.WithIssuer(issuer))
		if err != nil {
			panic(err)
		}
		signers, verifiers = append(signers, signer), append(verifiers, verifier)
	}
	verifier, err := jwt.ByIssuer(verifiers...)
	if err != nil {
		panic(err)
	}
	for i := range issuers {
		own, _ := signers[i].Sign(map[string]any{"iss": issuers[i], "exp": 2532524891})
		other, _ := signers[i].Sign(map[string]any{"iss": issuers[1-i], "exp": 2532524891})
		_, accepted := verifier.Parse(own)
		_, refused := verifier.Parse(other)
		fmt.Println(accepted, errors.Is(refused, jwt.ErrIssuer))
	}
	// Output:
	// <nil> true
	// <nil> true
}

func ExampleCheckClaims() {
	claims := []byte(`{"iss":"https://login.example","exp":2532524891}`)
	fmt.Println(jwt.CheckClaims(claims, jwt.WithIssuer("https://login.example")))
	fmt.Println(jwt.CheckClaims(claims, jwt.WithIssuer("https://other.example")))
	// Output:
	// <nil>
	// jwt: InvalidIssuer
}

func ExampleParse() {
	key, _ := jwt.NewSecretKey(secret)
	text, _ := jwt.Sign(map[string]any{"sub": "ada", "exp": 2532524891}, secret, "HS256", nil)
	token, err := jwt.Parse(text, key, []string{"HS256"})
	if err != nil {
		panic(err)
	}
	fmt.Println(string(token.RawClaims()))
	// Output: {"exp":2532524891,"sub":"ada"}
}

func ExampleParseJWK() {
	// RFC 7515 appendix A.3
	key, err := jwt.ParseJWK([]byte(`{"kty":"EC","crv":"P-256","x":"f83OJ3D2xF1Bg8vub9tLe1gHMzV76e8Tus9uPHvRVEU","y":"x_FEzRu9m36HLN_tue659LNpXW6pCyStikYjKIWI5a0"}`))
	if err != nil {
		panic(err)
	}
	then := func() time.Time { return time.Unix(1300819379, 0) }
	token, err := jwt.Parse("eyJhbGciOiJFUzI1NiJ9.eyJpc3MiOiJqb2UiLA0KICJleHAiOjEzMDA4MTkzODAsDQogImh0dHA6Ly9leGFtcGxlLmNvbS9pc19yb290Ijp0cnVlfQ."+
		"DtEhU3ljbEg8L38VWAfUAqOyKAM6-Xx-F4GawxaepmXFCgfTjDxw5djxLa8ISlSApmWQxfKTUJqPP3-Kg6NU1Q", key, []string{"ES256"}, jwt.WithTime(then))
	if err != nil {
		panic(err)
	}
	var claims jwt.RegisteredClaims
	fmt.Println(token.Claims(&claims), claims.Issuer)
	// Output: <nil> joe
}

func ExampleError() {
	key, _ := jwt.NewSecretKey(secret)
	text, _ := jwt.Sign(map[string]any{"exp": 2532524891}, secret, "HS256", nil)
	_, err := jwt.Parse(text, key, []string{"HS256"}, jwt.WithIssuer("https://login.example"))
	var refused *jwt.Error
	if errors.Is(err, jwt.ErrMissingClaim) && errors.As(err, &refused) {
		fmt.Println(refused.Claim, refused.Test)
	}
	// Output: iss ClaimsAreValid
}

func ExampleNewKeySet() {
	fetch := func(context.Context) ([]byte, error) {
		return []byte(`{"keys":[{"kty":"oct","kid":"a","k":"MDEyMzQ1Njc4OWFiY2RlZjAxMjM0NTY3ODlhYmNkZWY"}]}`), nil
	}
	ctx, cancel := context.WithCancel(context.Background())
	defer cancel()
	set, err := jwt.NewKeySet(ctx, fetch, jwt.WithRefresh(time.Hour))
	if err != nil {
		panic(err)
	}
	verifier, err := jwt.NewVerifier(set.Key(), []string{"HS256"})
	if err != nil {
		panic(err)
	}
	text, _ := jwt.Sign(map[string]any{"exp": 2532524891}, secret, "HS256", map[string]any{"kid": "a"})
	_, err = verifier.Parse(text)
	fmt.Println(err)
	text, _ = jwt.Sign(map[string]any{"exp": 2532524891}, secret, "HS256", map[string]any{"kid": "b"})
	_, err = verifier.Parse(text)
	fmt.Println(errors.Is(err, jwt.ErrUnknownKey))
	// Output:
	// <nil>
	// true
}

func ExampleNewSigner() {
	private, _ := rsa.GenerateKey(rand.Reader, 2048) // jwt.ParsePrivatePEM reads one
	signer, err := jwt.NewSigner(private, "RS256", jwt.WithKeyID("2026-11"))
	if err != nil {
		panic(err)
	}
	text, err := signer.Sign(jwt.RegisteredClaims{Subject: "ada", ExpiresAt: jwt.NewNumericDate(time.Now().Add(time.Minute))})
	if err != nil {
		panic(err)
	}
	jwk, err := signer.JWK()
	if err != nil {
		panic(err)
	}
	set, err := jwt.ParseJWKSet([]byte(`{"keys":[` + string(jwk) + `]}`))
	if err != nil {
		panic(err)
	}
	_, err = jwt.Parse(text, set, []string{"RS256"}, jwt.WithSubject("ada"))
	fmt.Println(err)
	// Output: <nil>
}

func ExampleMiddleware() {
	key, _ := jwt.NewSecretKey(secret)
	verifier, _ := jwt.NewVerifier(key, []string{"HS256"})
	protect, err := jwt.Middleware(verifier, jwt.WithClaims[jwt.RegisteredClaims]())
	if err != nil {
		panic(err)
	}
	guarded := protect(http.HandlerFunc(func(to http.ResponseWriter, request *http.Request) {
		claims, _ := jwt.FromContext[jwt.RegisteredClaims](request.Context())
		fmt.Fprint(to, "hello ", claims.Subject)
	}))
	text, _ := jwt.Sign(map[string]any{"sub": "ada", "exp": 2532524891}, secret, "HS256", nil)
	for _, authorization := range []string{"Bearer " + text, "Bearer of bad news"} {
		request, answer := httptest.NewRequest(http.MethodGet, "/", nil), httptest.NewRecorder()
		request.Header.Set("Authorization", authorization)
		guarded.ServeHTTP(answer, request)
		fmt.Println(answer.Code, answer.Header().Get("WWW-Authenticate"), answer.Body)
	}
	// Output:
	// 200  hello ada
	// 401 Bearer realm="api", error="invalid_token" Unauthorized
}

func ExampleNewSigningInput() {
	public, private, _ := ed25519.GenerateKey(nil)
	input, err := jwt.NewSigningInput(map[string]any{"sub": "ada", "exp": 2532524891}, "EdDSA", nil)
	if err != nil {
		panic(err)
	}
	// a KMS signs likewise
	text, err := input.Token(ed25519.Sign(private, input.Message))
	if err != nil {
		panic(err)
	}
	key, _ := jwt.NewPublicKey(public)
	token, err := jwt.Parse(text, key, []string{"EdDSA"}, jwt.WithSubject("ada"))
	if err != nil {
		panic(err)
	}
	fmt.Println(string(token.RawClaims()))
	// Output: {"exp":2532524891,"sub":"ada"}
}

func ExampleSigningInput_Token() {
	private, _ := rsa.GenerateKey(rand.Reader, 2048)
	input, err := jwt.NewSigningInput(map[string]any{"exp": 2532524891}, "PS256", nil)
	if err != nil {
		panic(err)
	}
	// RSA signs the digest, and the salt is as long as the digest
	digest := sha256.Sum256(input.Message)
	signature, err := rsa.SignPSS(rand.Reader, private, crypto.SHA256, digest[:], &rsa.PSSOptions{SaltLength: rsa.PSSSaltLengthEqualsHash})
	if err != nil {
		panic(err)
	}
	text, err := input.Token(signature)
	if err != nil {
		panic(err)
	}
	key, _ := jwt.NewPublicKey(&private.PublicKey)
	_, err = jwt.Parse(text, key, []string{"PS256"})
	fmt.Println(err)
	// Output: <nil>
}

func ExampleParseByVerdict() {
	public, private, _ := ed25519.GenerateKey(nil)
	input, _ := jwt.NewSigningInput(map[string]any{"exp": 2532524891}, "EdDSA", nil)
	text, _ := input.Token(ed25519.Sign(private, input.Message))
	signature, err := jwt.UnverifiedSignature(text)
	if err != nil {
		panic(err)
	}
	// the key is for EdDSA, whatever the header names
	signature.Algorithm = "EdDSA"
	isGenuine := ed25519.Verify(public, signature.Message, signature.Bytes)
	token, err := jwt.ParseByVerdict(text, signature, isGenuine, []string{"EdDSA"})
	if err != nil {
		panic(err)
	}
	fmt.Println(string(token.RawClaims()))
	// Output: {"exp":2532524891}
}

func ExampleThumbprint() {
	// RFC 8037 appendix A.3
	text, err := jwt.Thumbprint([]byte(`{"kty":"OKP","crv":"Ed25519","x":"11qYAYKxCrfVS_7TyWQHOg7hcvPapiMlrwIaaPcHURo"}`), 256)
	fmt.Println(text, err)
	// Output: kPrK_qmxVWaYVA9wwBF6Iuo3vVzz7TxHCTwXBygrS4k <nil>
}
