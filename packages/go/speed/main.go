// The program speed measures Parse and Sign next to golang-jwt's, in turns in one process, and prints the least of the times in
// microseconds, as a table for README.md. It needs the installed library and golang-jwt of Debian: in this folder,
// `GOFLAGS=-mod=mod GOPROXY=off go run .`, on a machine that does nothing else.
package main

import (
	"crypto"
	"crypto/ecdsa"
	"crypto/ed25519"
	"crypto/elliptic"
	"crypto/rand"
	"crypto/rsa"
	"fmt"
	"log"
	"math"
	"time"

	"curbsorrel.example/jwt"
	peer "github.com/golang-jwt/jwt/v4"
)

const (
	turns = 200
	// how long the calls of a turn take, about
	turn = 3 * time.Millisecond
)

type session struct {
	Sub     string `json:"sub"`
	Company string `json:"company"`
	Exp     int64  `json:"exp"`
}

// Valid makes it claims of golang-jwt, which tests exp so.
func (s session) Valid() error {
	if time.Now().Unix() >= s.Exp {
		return peer.ErrTokenExpired
	}
	return nil
}

// work is what is measured, and what golang-jwt does in its place.
type work struct {
	name         string
	ours, theirs func() error
}

func fatal(err error) {
	if err != nil {
		log.Fatal(err)
	}
}

// of returns the works of an algorithm, by a secret or by a private key.
func of(algorithm string, secret []byte, private crypto.Signer) []work {
	claims, method := session{"b@b.com", "ACME", 4102444800}, peer.GetSigningMethod(algorithm)
	signs := func() (string, error) { return jwt.Sign(claims, secret, algorithm, nil) }
	makes := func() (jwt.Key, error) { return jwt.NewSecretKey(secret) }
	var issuing, verifying any = secret, secret
	if private != nil {
		issuing, verifying = private, private.Public()
		signer, err := jwt.NewSigner(private, algorithm)
		fatal(err)
		signs = func() (string, error) { return signer.Sign(claims) }
		makes = func() (jwt.Key, error) { return jwt.NewPublicKey(private.Public()) }
	}
	key, err := makes()
	fatal(err)
	verifier, err := jwt.NewVerifier(key, []string{algorithm})
	fatal(err)
	token, err := signs()
	fatal(err)
	parser := peer.NewParser(peer.WithValidMethods([]string{algorithm}))
	return []work{
		{algorithm + " Parse", func() error {
			var read session
			verified, err := verifier.Parse(token)
			if err == nil {
				err = verified.Claims(&read)
			}
			return err
		}, func() error {
			_, err := parser.ParseWithClaims(token, &session{}, func(*peer.Token) (any, error) { return verifying, nil })
			return err
		}},
		{algorithm + " Sign", func() error {
			_, err := signs()
			return err
		}, func() error {
			_, err := peer.NewWithClaims(method, claims).SignedString(issuing)
			return err
		}},
	}
}

// mean returns the microseconds of a call, among so many.
func mean(call func() error, count int) float64 {
	begin := time.Now()
	for i := 0; i < count; i++ {
		fatal(call())
	}
	return float64(time.Since(begin).Nanoseconds()) / 1000 / float64(count)
}

func main() {
	ofRSA, err := rsa.GenerateKey(rand.Reader, 2048)
	fatal(err)
	ofCurve, err := ecdsa.GenerateKey(elliptic.P256(), rand.Reader)
	fatal(err)
	_, ed, err := ed25519.GenerateKey(rand.Reader)
	fatal(err)
	secret := make([]byte, 32)
	_, err = rand.Read(secret)
	fatal(err)
	works := append(of("HS256", secret, nil), of("RS256", nil, ofRSA)...)
	works = append(append(works, of("ES256", nil, ofCurve)...), of("EdDSA", nil, ed)...)
	fmt.Print("| | here, us | golang-jwt, us | ratio |\n|---|---|---|---|\n")
	for _, it := range works {
		counts := [2]int{}
		least := [2]float64{math.Inf(1), math.Inf(1)}
		for i, call := range []func() error{it.ours, it.theirs} {
			counts[i] = 1 + int(float64(turn.Microseconds())/mean(call, 3))
		}
		for i := 0; i < turns; i++ {
			least[0] = math.Min(least[0], mean(it.ours, counts[0]))
			least[1] = math.Min(least[1], mean(it.theirs, counts[1]))
		}
		fmt.Printf("| %s | %.1f | %.1f | %.2f |\n", it.name, least[0], least[1], least[0]/least[1])
	}
}
