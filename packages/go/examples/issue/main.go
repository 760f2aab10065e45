// Issues a token with a secret, and one with a private key, which the library never sees. The last line counts.
package main

import (
	"crypto"
	"crypto/ecdsa"
	"crypto/elliptic"
	"crypto/rand"
	"fmt"
	"os"
	"time"

	"curbsorrel.example/jwt"
)

// claims are of your own type; their names are written with tags of encoding/json.
type claims struct {
	Subject string `json:"sub"`
	Expires int64  `json:"exp"`
}

// byKey signs with a private key, such as one that a KMS keeps.
func byKey(key crypto.Signer, issued claims) (string, error) {
	signer, err := jwt.NewSigner(key, "ES256", jwt.WithKeyID("a"))
	if err != nil {
		return "", err
	}
	return signer.Sign(issued)
}

func main() {
	// a real secret comes from a file
	secret := make([]byte, 32)
	_, noSecret := rand.Read(secret)
	private, noKey := ecdsa.GenerateKey(elliptic.P256(), rand.Reader)
	issued := claims{"b@b.com", time.Now().Add(time.Minute).Unix()}
	bySecret, noToken := jwt.Sign(issued, secret, "HS256", nil)
	byPrivate, noSignature := byKey(private, issued)
	verifyingSecret, _ := jwt.NewSecretKey(secret)
	public, _ := jwt.NewPublicKey(&private.PublicKey)
	one, refusedOne := jwt.Parse(bySecret, verifyingSecret, []string{"HS256"})
	other, refusedOther := jwt.Parse(byPrivate, public, []string{"ES256"}, jwt.WithSubject("b@b.com"))
	for _, err := range []error{noSecret, noKey, noToken, noSignature, refusedOne, refusedOther} {
		if err != nil {
			fmt.Println(err)
			os.Exit(1)
		}
	}
	fmt.Printf("%s\n%s\n2 tokens from Go, 0 failed\n", one.RawClaims(), other.RawClaims())
}
