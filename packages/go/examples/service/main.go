// Issues tokens with RS256 and keys that rotate, and serves a page to those who have one: service 127.0.0.1:8080 24h
package main

import (
	"context"
	"crypto/rand"
	"crypto/rsa"
	"fmt"
	"log"
	"net/http"
	"os"
	"sync/atomic"
	"time"

	"curbsorrel.example/jwt"
)

type pair [2]*jwt.Signer // the last key, whose tokens may not have expired yet, and the one that signs

func (p pair) rotated() *pair {
	return &pair{p[1], must(jwt.NewSigner(must(rsa.GenerateKey(rand.Reader, 2048)), "RS256", jwt.WithKeyID(time.Now().Format(time.RFC3339Nano))))}
}

func must[T any](made T, err error) T {
	if err != nil {
		log.Fatal(err)
	}
	return made
}

func main() {
	var keys atomic.Pointer[pair]
	issuer, every := "http://"+os.Args[1], must(time.ParseDuration(os.Args[2]))
	keys.Store(pair{}.rotated().rotated())
	go func() {
		for range time.Tick(every) {
			keys.Store(keys.Load().rotated())
		}
	}()
	skipped := jwt.WithSkippedKeys(func(it jwt.SkippedKey) { log.Print(it) })
	set := must(jwt.FetchKeySet(context.Background(), issuer+"/keys", nil, jwt.WithLazyStart(), jwt.WithRefetch(time.Second), skipped))
	verifier := must(jwt.NewVerifier(set.Key(), []string{"RS256"}, jwt.WithAudience("web"), jwt.WithIssuer(issuer)))
	protect := must(jwt.Middleware(verifier, jwt.WithClaims[jwt.RegisteredClaims](), jwt.WithLog(func(_ *http.Request, err error) { log.Print(err) })))
	http.HandleFunc("/keys", func(to http.ResponseWriter, _ *http.Request) {
		now := keys.Load()
		fmt.Fprintf(to, `{"keys":[%s,%s]}`, must(now[0].JWK()), must(now[1].JWK()))
	})
	http.HandleFunc("/token", func(to http.ResponseWriter, request *http.Request) { // a real service asks first who the user is
		token, err := keys.Load()[1].Sign(jwt.RegisteredClaims{Issuer: issuer, Audience: jwt.ClaimStrings{"web"},
			Subject: request.FormValue("sub"), ExpiresAt: jwt.NewNumericDate(time.Now().Add(time.Minute))})
		if err != nil {
			to.WriteHeader(http.StatusInternalServerError)
		}
		fmt.Fprint(to, token)
	})
	http.Handle("/", protect(http.HandlerFunc(func(to http.ResponseWriter, request *http.Request) {
		claims, _ := jwt.FromContext[jwt.RegisteredClaims](request.Context())
		fmt.Fprintln(to, "hello", claims.Subject)
	})))
	log.Fatal(http.ListenAndServe(os.Args[1], nil))
}
