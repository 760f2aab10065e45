package jwt

import (
	"context"
	"crypto/x509"
	"encoding/json"
	"errors"
	"fmt"
	"reflect"
	"strings"
	"sync/atomic"
	"testing"
	"time"
)

// kinds has the kind of each error that the rows name.
var kinds = map[string]error{
	"BadKey": ErrKey, "NoUsableKey": ErrKey, "InvalidKeyFormat": ErrKey, "NoKey": ErrUnknownKey, "InvalidSignature": ErrSignature,
	"InvalidAlgorithm": ErrAlgorithm, "ExpiredSignature": ErrExpired, "Base64": ErrMalformed, "Json": ErrMalformed,
}

// verifierOf returns a verifier with a key, or the error of either.
func verifierOf(key Key, err error, algorithms []string, with ...Option) (*Verifier, error) {
	if err != nil {
		return nil, err
	}
	return NewVerifier(key, algorithms, with...)
}

// read is a key, or the error of reading it.
type read struct {
	key Key
	err error
}

// readBy returns the ways to read the keys of a row: a set is one that stays and one that is fetched, which refuse a key that is in no set.
func readBy(t *testing.T, id, text string) map[string]read {
	until, cancel := context.WithCancel(context.Background())
	t.Cleanup(cancel)
	stays, noKey := ParseJWKSet([]byte(text))
	rotates, noSet := NewKeySet(until, func(context.Context) ([]byte, error) { return []byte(text), nil })
	if !strings.HasPrefix(id, "alone: ") {
		return map[string]read{"stays": {stays, noKey}, "rotates": {rotates.Key(), noSet}}
	}
	if !isStatus(noKey, 106) || !isStatus(noSet, 106) {
		t.Errorf("%s: %v, %v", id, noKey, noSet)
	}
	alone, noKey := ParseJWK([]byte(text))
	return map[string]read{"alone": {alone, noKey}}
}

// TestOddSets has the rows of sets with items that are not usable keys, and of keys that are in no set.
func TestOddSets(t *testing.T) {
	seen := map[string]int{}
	rowsOf(t, vectors+"odd_sets.jsonl", func(line []byte) {
		var it struct {
			ID, Set, Token string
			Algorithms     []string
			Time           int64
			Want           struct {
				Ok  map[string]any
				Err string
			}
		}
		if err := json.Unmarshal(line, &it); err != nil {
			t.Fatalf("%s: %v", line, err)
		}
		want := kinds[it.Want.Err]
		if len(it.Algorithms) == 0 {
			want = ErrOption
		}
		seen[it.Want.Err]++
		for name, of := range readBy(t, it.ID, it.Set) {
			verifier, err := verifierOf(of.key, of.err, it.Algorithms, at(it.Time))
			isMade := err == nil
			var token *Token
			if isMade {
				token, err = verifier.Parse(it.Token)
			}
			isKnown := want != nil || it.Want.Ok != nil && it.Want.Err == ""
			if !isKnown || !errors.Is(err, want) || (err == nil) != (want == nil) || isMade == (it.Want.Err == "BadKey" || it.Want.Err == "NoUsableKey") {
				t.Errorf("%s, %s: %v, not %q", it.ID, name, err, it.Want.Err)
				continue
			}
			var claims map[string]any
			if want == nil && (token.Claims(&claims) != nil || !reflect.DeepEqual(claims, it.Want.Ok)) {
				t.Errorf("%s, %s: %v, not %v", it.ID, name, claims, it.Want.Ok)
			}
		}
	})
	for name := range kinds {
		if seen[name] == 0 {
			t.Errorf("no row has %s", name)
		}
	}
	if seen[""] < 50 {
		t.Error(seen)
	}
}

// oddItems has items of a set that are not usable keys, with the kid and the reason that jwtproved.h names.
var oddItems = []struct {
	item, kid string
	status    uint32
}{
	{`5`, "", 106},
	{`{"kty":"oct","k":"c2VjcmV0","kid":7}`, "", 106},
	{`{"kty":"AKP","kid":"pq","alg":"ML-DSA-44","pub":"AA"}`, "pq", 7},
	{`{"kty":"RSA","kid":"n","e":"AQAB"}`, "n", 7},
	{`{"kty":"OKP","kid":"pad","crv":"Ed25519","x":"11qYAYKxCrfVS_7TyWQHOg7hcvPapiMlrwIaaPcHURo="}`, "pad", 19},
	{`{"kty":"OKP","kid":"enc","use":"enc","crv":"Ed25519","x":"11qYAYKxCrfVS_7TyWQHOg7hcvPapiMlrwIaaPcHURo"}`, "enc", 115},
	{`{"kty":"RSA","kid":"short","n":"AQAB","e":"AQAB"}`, "short", 118},
	{`{"kty":"EC","kid":"\u202e","crv":"P-256","x":"AQAB","y":"AQAB"}`, "\u202e", 118},
	{`{"kty":"oct","kid":"zeros","k":"AAAA"}`, "zeros", 107},
	{`{"kty":"oct","kid":"ssh","k":"` + part([]byte("ssh-ed25519 AAAAC3NzaC1lZDI1NTE5AAAAINdamAGCsQq31Uv+08lkBzoO4XLz2qYjJa8CGmj3B1Ea")) + `"}`, "ssh", 113},
}

// oddSet returns a set of the key "a" and the odd items, in this order.
func oddSet() string {
	items := []string{}
	for _, it := range oddItems {
		items = append(items, it.item)
	}
	return strings.TrimSuffix(setOf("a"), "]}") + "," + strings.Join(items, ",") + "]}"
}

// checkSkipped compares the skipped items of a set with the odd items.
func checkSkipped(t *testing.T, skipped []SkippedKey) {
	t.Helper()
	if len(skipped) != len(oddItems) {
		t.Fatal(skipped)
	}
	for i, it := range skipped {
		want := oddItems[i]
		text := it.String()
		if it.Place != i+1 || it.KeyID != want.kid || it.Status != want.status || it.Reason == "" || !strings.HasSuffix(text, "is skipped: "+it.Reason) {
			t.Errorf("%+v, %s, not %+v", it, text, want)
		}
		if !strings.HasPrefix(text, fmt.Sprintf("key %d", i+1)) || strings.Contains(text, "kid") != (want.kid != "") || strings.Contains(text, "\u202e") {
			t.Error(text)
		}
	}
}

// TestSkipped has a set with odd items: the other key verifies, and each odd item is listed with its reason.
func TestSkipped(t *testing.T) {
	key, err := ParseJWKSet([]byte(oddSet()))
	if err != nil {
		t.Fatal(err)
	}
	checkSkipped(t, key.Skipped())
	verifier, err := NewVerifier(key, eddsa, at(now))
	if err != nil {
		t.Fatal(err)
	}
	wants(t, verifier, tokenOf("a", "a"), nil)
	wants(t, verifier, tokenOf("a", "b"), ErrSignature)
	wants(t, verifier, tokenOf("pad", "pad"), ErrUnknownKey)
	_, err = NewVerifier(key, []string{"HS256", "RS256"})
	for _, it := range key.Skipped() {
		if !errors.Is(err, ErrKey) || !strings.Contains(err.Error(), it.String()) {
			t.Errorf("%v, without %v", err, it)
		}
	}
	for _, it := range []Key{{}, secretOf(t, secret), (*KeySet)(nil).Key()} {
		if skipped := it.Skipped(); len(skipped) != 0 {
			t.Error(skipped)
		}
	}
}

// TestSkippedOfKeySet has a fetched set with odd items: the function of WithSkippedKeys is called with each, once for each text.
func TestSkippedOfKeySet(t *testing.T) {
	server := serve(t, says(oddSet()))
	var text atomic.Value
	reported := make(chan SkippedKey, 100)
	log := func(it SkippedKey) {
		if why := text.Load(); why != nil {
			panic(why)
		}
		reported <- it
	}
	drained := func() []SkippedKey {
		found := []SkippedKey{}
		for len(reported) > 0 {
			found = append(found, <-reported)
		}
		return found
	}
	set, verifier := following(t, server.uri, WithSkippedKeys(log))
	first := drained()
	if len(first) < len(oddItems) {
		t.Fatal(first)
	}
	checkSkipped(t, first[len(first)-len(oddItems):]) // on a busy machine there may be several fetches
	checkSkipped(t, set.Key().Skipped())
	wants(t, verifier, tokenOf("a", "a"), nil)
	wants(t, verifier, tokenOf("b", "b"), ErrUnknownKey) // which causes a fetch
	if again := drained(); len(again) != 0 || server.fetches.Load() < 2 {
		t.Error(again)
	}
	next := func(of string) {
		time.Sleep(soon + 10*time.Millisecond)
		server.answer.Store(says(of))
	}
	next(strings.Replace(oddSet(), "{", ` {"more":1,`, 1))
	wants(t, verifier, tokenOf("b", "b"), ErrUnknownKey)
	checkSkipped(t, drained())
	// a set without a usable key, and a function that panics: the last set stays
	next(`{"keys":[{"kty":"oct","kid":"b","k":""}]}`)
	wants(t, verifier, tokenOf("b", "b"), ErrUnknownKey)
	if err := set.Err(); !errors.Is(err, ErrKey) || !strings.Contains(err.Error(), `key 0, with the kid "b", is skipped: Secret is empty or all zeros`) {
		t.Error(err)
	}
	if it := drained(); len(it) != 1 || it[0].Place != 0 || it[0].KeyID != "b" || it[0].Status != 107 {
		t.Error(it)
	}
	text.Store("oops")
	next(strings.Replace(setOf("b"), "[", "[5,", 1))
	wants(t, verifier, tokenOf("b", "b"), ErrFetch)
	if err := set.Err(); !errors.Is(err, ErrFetch) || !strings.Contains(err.Error(), "oops") {
		t.Error(err)
	}
	wants(t, verifier, tokenOf("a", "a"), nil)
}

// TestUse has keys for encryption: one alone is refused, and one in a set is skipped.
func TestUse(t *testing.T) {
	token := tokenOf("a", "a")
	for use, want := range map[string]error{`"sig"`: nil, `null`: nil, `"enc"`: ErrKey, `"SIG"`: ErrKey, `""`: ErrKey} {
		of := strings.Replace(setOf("a"), `"kid"`, `"use":`+use+`,"kid"`, 1)
		key, err := ParseJWK([]byte(keyOf(of)))
		if _, err = verifierOf(key, err, eddsa); !errors.Is(err, want) || want != nil && !isStatus(err, 115) {
			t.Errorf("%s: %v", use, err)
		}
		set, err := ParseJWKSet([]byte(strings.Replace(of, "]}", ","+keyOf(setOf("b"))+"]}", 1)))
		verifier, err := verifierOf(set, err, eddsa, at(now))
		if err != nil {
			t.Fatal(err)
		}
		wants(t, verifier, tokenOf("b", "b"), nil)
		if _, err := verifier.Parse(token); want == nil && err != nil || want != nil && !errors.Is(err, ErrUnknownKey) {
			t.Errorf("%s: %v", use, err)
		}
	}
}

// TestAlgOfKeyAlone has a key that is not in a set, and has an alg: it verifies with that algorithm alone.
func TestAlgOfKeyAlone(t *testing.T) {
	key, err := ParseJWK([]byte(jwksOf(t, true)[0])) // of RS256
	if err != nil {
		t.Fatal(err)
	}
	for _, it := range []struct {
		listed, signs string
		want          error
	}{
		{"RS256", "RS256", nil},
		{"RS256 PS256 ES256", "RS256", nil},
		{"RS256 PS256", "PS256", ErrAlgorithm},
		{"RS256 RS512", "RS512", ErrAlgorithm},
		{"PS256 RS384", "", ErrKey},
	} {
		verifier, err := NewVerifier(key, strings.Fields(it.listed), at(now))
		if err == nil {
			_, err = verifier.Parse(issuedBy(t, rsaKey, it.signs, "any", ""))
		}
		if !errors.Is(err, it.want) || (verifier == nil) != (it.signs == "") {
			t.Errorf("%+v: %v", it, err)
		}
	}
	for _, it := range []string{`{"kty":"oct","alg":"RS256","k":"` + part(secret) + `"}`, strings.Replace(joesKey, `"crv"`, `"alg":"ES384","crv"`, 1)} {
		if _, err := ParseJWK([]byte(it)); !errors.Is(err, ErrKey) || !isStatus(err, 118) {
			t.Errorf("%s: %v", it, err)
		}
	}
}

// TestReadOnce counts the calls of C: one reads a key, one returns what it verifies, one makes a verifier, and one verifies a token.
func TestReadOnce(t *testing.T) {
	der, err := x509.MarshalPKIXPublicKey(&rsaKey.PublicKey)
	if err != nil {
		t.Fatal(err)
	}
	inPEM := []byte(pemOf(t, &rsaKey.PublicKey))
	alone, set := []byte(jwksOf(t, false)[0]), []byte(setOfJWKs(jwksOf(t, false)...))
	var key Key
	keep := func(made Key, err error) {
		if key = made; err != nil {
			t.Error(err)
		}
	}
	for name, read := range map[string]func(){
		"PEM":    func() { keep(ParsePEM(inPEM)) },
		"DER":    func() { keep(ParsePEM(der)) },
		"a key":  func() { keep(ParseJWK(alone)) },
		"a set":  func() { keep(ParseJWKSet(set)) },
		"public": func() { keep(NewPublicKey(&rsaKey.PublicKey)) },
	} {
		if calls := callsOf(read); calls != 2 {
			t.Errorf("%s: %d calls", name, calls)
		}
		token := issuedBy(t, rsaKey, "RS256", issuers[0].name, "")
		var verifier *Verifier
		if calls := callsOf(func() { verifier, err = NewVerifier(key, []string{"RS256"}, at(now)) }); calls != 1 || err != nil {
			t.Errorf("%s: %d calls, %v", name, calls, err)
			continue
		}
		wants(t, verifier, token, nil)
		if calls := callsOf(func() { _, _ = verifier.Parse(token) }); calls != 1 {
			t.Errorf("%s: %d calls", name, calls)
		}
	}
}

// TestManyOddItems has sets of 100,000 odd items, which take linear time: quadratic time would be hours.
func TestManyOddItems(t *testing.T) {
	odd := strings.TrimPrefix(strings.TrimSuffix(oddSet(), "]}"), strings.TrimSuffix(setOf("a"), "]}"))
	count := 100000 / len(oddItems) * len(oddItems)
	many := strings.Repeat(odd, 100000/len(oddItems))
	begin := time.Now()
	key, err := ParseJWKSet([]byte(strings.Replace(setOf("a"), "]}", many+"]}", 1)))
	verifier, err := verifierOf(key, err, eddsa, at(now))
	if err != nil {
		t.Fatal(err)
	}
	wants(t, verifier, tokenOf("a", "a"), nil)
	skipped := key.Skipped()
	if len(skipped) != count || skipped[count-1].Place != count {
		t.Fatal(len(skipped))
	}
	for i, it := range skipped {
		if want := oddItems[i%len(oddItems)]; it.Place != i+1 || it.KeyID != want.kid || it.Status != want.status {
			t.Fatalf("%+v, not %+v", it, want)
		}
	}
	_, err = ParseJWKSet([]byte(`{"keys":[` + strings.TrimPrefix(many, ",") + `]}`))
	if !errors.Is(err, ErrKey) || strings.Count(err.Error(), "; key") != mostReasons || !strings.Contains(err.Error(), fmt.Sprintf("; %d more are skipped", count-mostReasons)) {
		t.Error(err)
	}
	if took := time.Since(begin); took > time.Minute {
		t.Error(took)
	}
}
