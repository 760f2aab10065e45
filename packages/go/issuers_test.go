package jwt

import (
	"context"
	"crypto/ed25519"
	"errors"
	"fmt"
	"strings"
	"sync"
	"sync/atomic"
	"testing"
	"time"
)

const ann, bob = "https://ann.example", "https://bob.example"

// claimed returns a token with these claims, which names a key and is signed by this or by another one.
func claimed(claims, kid, by string) string {
	message := part([]byte(fmt.Sprintf(`{"alg":"EdDSA","kid":%q}`, kid))) + "." + part([]byte(claims))
	return message + "." + part(ed25519.Sign(signer(by), []byte(message)))
}

// claimsFrom returns claims of an issuer.
func claimsFrom(issuer string) string { return fmt.Sprintf(`{"exp":1700000001,"iss":%q}`, issuer) }

// setUnder returns a set of one key, under another kid.
func setUnder(kid, of string) string {
	return strings.Replace(setOf(of), fmt.Sprintf(`"kid":%q`, of), fmt.Sprintf(`"kid":%q`, kid), 1)
}

// verifierFrom returns a verifier of an issuer with the keys of a set.
func verifierFrom(t *testing.T, set, issuer string, with ...Option) *Verifier {
	t.Helper()
	key, err := ParseJWKSet([]byte(set))
	verifier, err := verifierOf(key, err, eddsa, append(with, WithIssuer(issuer), at(now))...)
	if err != nil {
		t.Fatal(err)
	}
	return verifier
}

func byIssuer(t *testing.T, verifiers ...*Verifier) *Verifier {
	t.Helper()
	made, err := ByIssuer(verifiers...)
	if err != nil {
		t.Fatal(err)
	}
	return made
}

// TestByIssuer has issuers whose keys have the same kid, and other conditions: a key of one issuer signs no token of another.
func TestByIssuer(t *testing.T) {
	ofAnn := verifierFrom(t, setUnder("1", "ann"), ann)
	ofBob := verifierFrom(t, setUnder("1", "bob"), bob, WithRequired("role"), WithStrings("role"))
	secretly, err := NewVerifier(secretOf(t, secret), []string{"HS256"}, WithIssuer("c", "d"), at(now))
	if err != nil {
		t.Fatal(err)
	}
	roleOf := func(role string) string { return strings.Replace(claimsFrom(bob), "}", `,"role":`+role+`}`, 1) }
	for _, verifier := range []*Verifier{byIssuer(t, ofAnn, ofBob, secretly), byIssuer(t, secretly, ofBob, ofAnn)} {
		for _, it := range []string{claimed(claimsFrom(ann), "1", "ann"), claimed(roleOf(`"a"`), "1", "bob"), signed(`{"alg":"HS256"}`, claimsFrom("d"), secret)} {
			wants(t, verifier, it, nil)
			if calls := callsOf(func() { _, _ = verifier.Parse(it) }); calls != 1 {
				t.Errorf("%d calls", calls)
			}
		}
		for _, it := range []struct {
			token string
			want  error
			claim string
		}{
			{claimed(claimsFrom(ann), "1", "bob"), ErrIssuer, ""},
			{claimed(roleOf(`"a"`), "1", "ann"), ErrIssuer, ""},
			{claimed(roleOf(`"a"`), "1", "eve"), ErrSignature, ""},
			{claimed(claimsFrom(ann), "2", "ann"), ErrAlgorithm, ""},
			{signed(`{"alg":"HS256"}`, claimsFrom(ann), secret), ErrIssuer, ""},
			{signed(`{"alg":"HS256","kid":"1"}`, claimsFrom(ann), secret), ErrIssuer, ""},
			{claimed(claimsFrom("https://eve.example"), "1", "ann"), ErrIssuer, ""},
			{claimed(`{"exp":1700000001,"iss":["`+ann+`"]}`, "1", "ann"), ErrMalformedClaim, "iss"},
			{claimed(`{"exp":1700000001,"iss":["`+bob+`","`+ann+`"]}`, "1", "ann"), ErrMalformedClaim, "iss"},
			{claimed(`{"exp":1700000001,"iss":["https://eve.example",5,"`+ann+`"]}`, "1", "ann"), ErrMissingClaim, "iss"},
			{claimed(`{"exp":1700000001}`, "1", "ann"), ErrMissingClaim, "iss"},
			{claimed(`{"exp":1700000001,"iss":null}`, "1", "bob"), ErrMissingClaim, "iss"},
			{claimed(`{"exp":1700000001,"iss":"`+ann+`","iss":"`+bob+`","role":"a"}`, "1", "ann"), ErrIssuer, ""},
			{claimed(`{"exp":1700000001,"ISS":"`+ann+`"}`, "1", "ann"), ErrMissingClaim, "iss"},
			{claimed(`{"exp":1700000000,"iss":"`+bob+`","role":"a"}`, "1", "bob"), ErrExpired, ""},
			{claimed(claimsFrom(bob), "1", "bob"), ErrMissingClaim, "role"},
			{claimed(roleOf("5"), "1", "bob"), ErrMalformedClaim, "role"},
			{"a.b.c", ErrMalformed, ""},
			{strings.Repeat("a", 1<<20+1), ErrMalformed, ""},
		} {
			var refused *Error
			if _, err := verifier.Parse(it.token); !errors.Is(err, it.want) || !errors.As(err, &refused) || refused.Claim != it.claim {
				t.Errorf("%.200s: %v, not %v", it.token, err, it.want)
			}
		}
	}
}

// TestByIssuerSlips has lists that can't be right.
func TestByIssuerSlips(t *testing.T) {
	ofAnn, ofBob := verifierFrom(t, setOf("ann"), ann), verifierFrom(t, setOf("bob"), bob)
	key, err := ParseJWKSet([]byte(setOf("c")))
	without, err := verifierOf(key, err, eddsa, WithRequired("iss"), at(now))
	if err != nil {
		t.Fatal(err)
	}
	onTime, err := NewVerifier(key, eddsa, WithIssuer("c"))
	if err != nil {
		t.Fatal(err)
	}
	for _, it := range []struct {
		verifiers []*Verifier
		cause     string
	}{
		{nil, "ByIssuer has no verifier"},
		{[]*Verifier{}, "ByIssuer has no verifier"},
		{[]*Verifier{ofAnn, nil}, "place 1"},
		{[]*Verifier{{}}, "place 0"},
		{[]*Verifier{byIssuer(t, ofAnn, ofBob)}, "place 0"},
		{[]*Verifier{ofAnn, without}, "the verifier at place 1 has no issuer: give it WithIssuer"},
		{[]*Verifier{ofAnn, ofBob, verifierFrom(t, setOf("eve"), ann)}, `the issuer "https://ann.example" is that of two verifiers`},
		{[]*Verifier{ofAnn, onTime}, "WithTime is given to some verifiers"},
		{[]*Verifier{onTime, ofAnn}, "WithTime is given to some verifiers"},
	} {
		if made, err := ByIssuer(it.verifiers...); made != nil || !errors.Is(err, ErrOption) || !strings.Contains(err.Error(), it.cause) {
			t.Errorf("%v, without %s", err, it.cause)
		}
	}
	if text := fmt.Sprintf("%v %+v %#v", byIssuer(t, ofAnn), *byIssuer(t, ofAnn), byIssuer(t, ofAnn)); strings.Contains(text, "ann") {
		t.Error(text)
	}
}

// fetchedFrom returns a verifier of an issuer whose set is fetched from a server.
func fetchedFrom(t *testing.T, server *keyServer, issuer string, with ...KeySetOption) *Verifier {
	t.Helper()
	set, _ := following(t, server.uri, with...)
	verifier, err := NewVerifier(set.Key(), eddsa, WithIssuer(issuer), at(now))
	if err != nil {
		t.Fatal(err)
	}
	return verifier
}

// TestByIssuerRotation has two issuers whose keys rotate, also to a kid that a key of the other issuer has. A token has the set of its own issuer
// fetched, and one of no issuer none.
func TestByIssuerRotation(t *testing.T) {
	first, second := serve(t, says(setUnder("1", "ann1"))), serve(t, says(setUnder("2", "bob2")))
	verifier := byIssuer(t, fetchedFrom(t, first, ann), fetchedFrom(t, second, bob))
	before := first.fetches.Load() // on a busy machine there may be several
	wants(t, verifier, claimed(claimsFrom(ann), "1", "ann1"), nil)
	wants(t, verifier, claimed(claimsFrom(bob), "2", "bob2"), nil)
	wants(t, verifier, claimed(claimsFrom("https://eve.example"), "3", "eve"), ErrUnknownKey)
	wants(t, verifier, claimed(`{"exp":1700000001}`, "3", "eve"), ErrUnknownKey)
	fetches := second.fetches.Load()
	second.answer.Store(says(setUnder("1", "bob1")))
	wants(t, verifier, claimed(claimsFrom(bob), "1", "bob1"), nil)
	wants(t, verifier, claimed(claimsFrom(bob), "2", "bob2"), ErrUnknownKey)
	wants(t, verifier, claimed(claimsFrom(bob), "1", "ann1"), ErrIssuer)
	wants(t, verifier, claimed(claimsFrom(ann), "1", "bob1"), ErrIssuer)
	wants(t, verifier, claimed(claimsFrom(ann), "1", "ann1"), nil)
	if first.fetches.Load() != before || second.fetches.Load() != fetches+1 {
		t.Error(first.fetches.Load(), before, second.fetches.Load(), fetches)
	}
	time.Sleep(soon + 10*time.Millisecond)
	first.answer.Store(says(setUnder("2", "ann2")))
	wants(t, verifier, claimed(claimsFrom(ann), "2", "ann2"), nil)
	wants(t, verifier, claimed(claimsFrom(ann), "1", "ann1"), ErrUnknownKey)
	wants(t, verifier, claimed(claimsFrom(bob), "1", "bob1"), nil)
	for _, it := range []string{claimed(claimsFrom(ann), "2", "ann2"), claimed(claimsFrom(bob), "1", "bob1")} {
		if calls := callsOf(func() { _, _ = verifier.Parse(it) }); calls != 1 {
			t.Errorf("%d calls", calls)
		}
	}
}

// TestByIssuerWithoutSet has an issuer whose key server is down: tokens of the others are accepted, and nothing is decided on its own.
func TestByIssuerWithoutSet(t *testing.T) {
	server := serve(t, sends(""))
	until, cancel := context.WithCancel(context.Background())
	defer cancel()
	set, err := FetchKeySet(until, server.uri, nil, WithLazyStart(), WithRefetch(soon))
	if err != nil {
		t.Fatal(err)
	}
	lazy, err := NewVerifier(set.Key(), eddsa, WithIssuer(bob), at(now))
	if err != nil {
		t.Fatal(err)
	}
	for _, verifier := range []*Verifier{byIssuer(t, lazy), byIssuer(t, lazy, verifierFrom(t, setOf("ann"), ann)), byIssuer(t, verifierFrom(t, setOf("ann"), ann), lazy)} {
		server.answer.Store(sends(""))
		guarded, _, logged := guarding(t, verifier)
		of := claimed(claimsFrom(bob), "bob", "bob")
		if _, err := verifier.Parse(claimed(claimsFrom(ann), "ann", "ann")); err != nil && !errors.Is(err, ErrFetch) {
			t.Error(err)
		}
		if set.Fetched().IsZero() {
			wants(t, verifier, of, ErrFetch)
			if got := asked(guarded, "Authorization", "Bearer "+of); got.Code != 503 {
				t.Error(got.Code, *logged)
			}
		}
		server.answer.Store(says(setOf("bob")))
		for i := 0; i < 300; i++ {
			if _, err := verifier.Parse(of); err == nil {
				break
			}
			time.Sleep(soon / 10)
		}
		wants(t, verifier, of, nil)
		if got := asked(guarded, "Authorization", "Bearer "+of); got.Code != 200 {
			t.Error(got.Code, *logged)
		}
		if got := asked(guarded, "Authorization", "Bearer "+claimed(claimsFrom(ann), "bob", "bob")); got.Code != 401 {
			t.Error(got.Code, *logged)
		}
	}
}

// TestByIssuerGoroutines has many goroutines verify while the keys of one issuer rotate.
func TestByIssuerGoroutines(t *testing.T) {
	var turn atomic.Int32
	until, cancel := context.WithCancel(context.Background())
	defer cancel()
	set, err := NewKeySet(until, inTurns(&turn), WithRefresh(time.Millisecond), WithRefetch(time.Millisecond))
	if err != nil {
		t.Fatal(err)
	}
	rotates, err := NewVerifier(set.Key(), eddsa, WithIssuer(bob), at(now))
	if err != nil {
		t.Fatal(err)
	}
	verifier := byIssuer(t, verifierFrom(t, setUnder("a", "ann"), ann), rotates)
	end := time.Now().Add(500 * time.Millisecond)
	var accepted atomic.Int32
	var group sync.WaitGroup
	for i := 0; i < 50; i++ {
		group.Add(1)
		go func() {
			defer group.Done()
			for time.Now().Before(end) {
				wants(t, verifier, claimed(claimsFrom(ann), "a", "ann"), nil)
				wants(t, verifier, claimed(claimsFrom(bob), "a", "a"), nil)
				wants(t, verifier, claimed(claimsFrom(bob), "a", "ann"), ErrIssuer)
				if _, err := verifier.Parse(claimed(claimsFrom(bob), "b", "b")); err == nil {
					accepted.Add(1)
				} else if !errors.Is(err, ErrUnknownKey) {
					t.Error(err)
				}
			}
		}()
	}
	group.Wait()
	if accepted.Load() == 0 || turn.Load() < 5 {
		t.Error(accepted.Load(), turn.Load())
	}
}
