package jwt

import (
	"encoding/json"
	"errors"
	"fmt"
	"os"
	"runtime"
	"strings"
	"sync"
	"testing"
	"time"
)

// TestGoroutines has many of them verify by one verifier, and by copies of it.
func TestGoroutines(t *testing.T) {
	verifier, err := NewVerifier(secretOf(t, secret), []string{"HS256"}, at(now))
	if err != nil {
		t.Fatal(err)
	}
	var group sync.WaitGroup
	for i := 0; i < 100; i++ {
		group.Add(1)
		go func(i int) {
			defer group.Done()
			own := *verifier
			good := signed(`{"alg":"HS256"}`, fmt.Sprintf(`{"exp":1700000001,"n":%d,"text":"%s"}`, i, strings.Repeat("a", 10*i)), secret)
			forged := signed(`{"alg":"HS256"}`, `{"exp":1700000001}`, []byte(fmt.Sprint(i)))
			for round := 0; round < 50; round++ {
				var claims struct{ N int }
				token, err := verifier.Parse(good)
				if err != nil || token.Claims(&claims) != nil || claims.N != i || len(token.RawClaims()) < 10*i {
					t.Errorf("%d: %v %v", i, claims, err)
				}
				var refused *Error
				if _, err := own.Parse(forged); !errors.As(err, &refused) || refused.Test != "SignatureIsAccepted" {
					t.Errorf("%d: %v", i, err)
				}
			}
		}(i)
	}
	for i := 0; i < 20; i++ {
		runtime.GC() // which frees idle handles
	}
	group.Wait()
}

type failing struct {
	ID, Call, Token string
	Set             json.RawMessage
	Key             struct{ Secret string }
	Validation      struct {
		Algorithms     []string
		UnderstoodCrit []string `json:"understood_crit"`
	}
	Provider any
	Now      int64
	Want     struct{ Ok *string }
}

func (it *failing) key(t *testing.T) Key {
	if it.Call == "failed_test" {
		return secretOf(t, []byte(it.Key.Secret))
	}
	key, err := ParseJWKSet(it.Set)
	if err != nil {
		t.Fatal(it.ID, err)
	}
	return key
}

// TestFailedTests has the rows of tokens whose first failed test is known.
func TestFailedTests(t *testing.T) {
	leftOut := map[string]bool{
		// the clock or the claims are those of other options
		"none fails at the last moment": true, "not yet valid": true,
		// NewVerifier or ParseJWKSet refuses these
		"no algorithm is listed": true, "no algorithm is listed, by a set": true, "a key for another algorithm": true,
		"a key of another kind": true, "a secret with padding": true, "a key of another family, by a set": true,
		"the key before the list of algorithms": true, "the key's algorithm before the key": true, "an extension that is not understood, by a set": true,
		// a Verifier accepts these: it takes the algorithms of the key's family
		"two families are listed": true, "then the families": true, "two families are listed, by a set": true,
	}
	seen := map[string]int{}
	rowsOf(t, vectors+"failed_tests.jsonl", func(line []byte) {
		var it failing
		if json.Unmarshal(line, &it) != nil || it.Call != "failed_test, set" && it.Call != "failed_test" || it.Provider != nil || leftOut[it.ID] ||
			it.Call == "failed_test" && it.Key.Secret == "" {
			return
		}
		with := []Option{at(it.Now)}
		if it.Validation.UnderstoodCrit != nil {
			with = append(with, WithUnderstoodCrit(it.Validation.UnderstoodCrit...))
		}
		verifier, err := NewVerifier(it.key(t), it.Validation.Algorithms, with...)
		if err != nil {
			t.Fatal(it.ID, err)
		}
		var refused *Error
		_, err = verifier.Parse(it.Token)
		if it.Want.Ok == nil {
			if err != nil {
				t.Errorf("%s: %v", it.ID, err)
			}
		} else if !errors.As(err, &refused) || refused.Test != *it.Want.Ok || refused.TestNumber == 0 {
			t.Errorf("%s: %v, %+v, not %s", it.ID, err, refused, *it.Want.Ok)
		} else {
			seen[*it.Want.Ok]++
		}
	})
	if len(seen) != 13 {
		t.Error(len(seen), seen)
	}
}

// TestNoTest has errors without a test of a token that failed.
func TestNoTest(t *testing.T) {
	verifier, err := NewVerifier(secretOf(t, secret), []string{"HS256"})
	if err != nil {
		t.Fatal(err)
	}
	_, tooLong := verifier.Parse(strings.Repeat("a", 1<<20+1))
	_, blank := NewSecretKey(nil)
	for _, err := range []error{tooLong, blank} {
		var refused *Error
		if !errors.As(err, &refused) || refused.Test != "" || refused.TestNumber != 0 || refused.Status == 0 {
			t.Errorf("%+v", err)
		}
	}
	if _, longest := verifier.Parse(strings.Repeat("a", 1<<20)); !errors.Is(longest, ErrMalformed) || errors.Is(longest, tooLong) {
		t.Error(longest)
	}
}

// TestRoom has claims of many lengths, and claims that the library writes anew, since a name is there twice, in more bytes than they had: floats in
// all their digits.
func TestRoom(t *testing.T) {
	verifier, err := NewVerifier(secretOf(t, secret), []string{"HS256"}, at(now))
	if err != nil {
		t.Fatal(err)
	}
	for length := 0; length < 600; length++ {
		claims := `{"exp":1700000001,"text":"` + strings.Repeat("a", length) + `"}`
		token, err := verifier.Parse(signed(`{"alg":"HS256"}`, claims, secret))
		if err != nil || string(token.RawClaims()) != claims || headerOf(t, token)["alg"] != "HS256" {
			t.Errorf("%d: %v, %v", length, token, err)
		}
	}
	for _, count := range []int{1, 10, 30, 100, 1000} {
		claims := `{"exp":1,"exp":1700000001,"floats":[1e15` + strings.Repeat(",1e15", count) + `]}`
		token, err := verifier.Parse(signed(`{"alg":"HS256"}`, claims, secret))
		if err != nil {
			t.Fatal(err)
		}
		var read struct{ Floats []float64 }
		if err := token.Claims(&read); err != nil || len(read.Floats) != count+1 || read.Floats[count] != 1e15 {
			t.Errorf("%d: %v, %v", count, read, err)
		}
		if count == 1000 && len(token.RawClaims()) <= len(claims)*2 {
			t.Errorf("%d bytes are not more", len(token.RawClaims()))
		}
	}
}

// residentKiB returns how much memory the process has.
func residentKiB(t *testing.T) int {
	status, err := os.ReadFile("/proc/self/status")
	if err != nil {
		t.Skip(err)
	}
	size := 0
	_, after, _ := strings.Cut(string(status), "VmRSS:")
	if _, err := fmt.Sscan(after, &size); err != nil {
		t.Skip(err)
	}
	return size
}

// TestMemoryOfVerifiers makes verifiers of large sets, and lets go of them: what the library holds of those of a round, some 80 MiB, is
// freed, and is there for those of the next.
func TestMemoryOfVerifiers(t *testing.T) {
	// the C library has memory of its own for each thread
	runtime.LockOSThread()
	defer runtime.UnlockOSThread()
	kids := make([]string, 500)
	for i := range kids {
		kids[i] = fmt.Sprint(i)
	}
	key, err := ParseJWKSet([]byte(setOf(kids...)))
	if err != nil {
		t.Fatal(err)
	}
	token := tokenOf("9", "9")
	first := 0
	for round := 0; round < 6; round++ {
		for i := 0; i < 5; i++ {
			verifier, err := NewVerifier(key, eddsa, at(now))
			if err != nil {
				t.Fatal(err)
			}
			wants(t, verifier, token, nil)
		}
		for i := 0; i < 3; i++ {
			runtime.GC() // an idle handle is let go at the second one, and its memory is freed after it
			time.Sleep(5 * time.Millisecond)
		}
		if round == 0 {
			first = residentKiB(t)
		}
	}
	if more := residentKiB(t) - first; more > 60*1024 {
		t.Errorf("%d KiB more", more)
	}
}

// benchmarked returns a verifier and a token of 149 bytes.
func benchmarked(b *testing.B) (*Verifier, string) {
	b.Helper()
	key, err := NewSecretKey(secret)
	if err != nil {
		b.Fatal(err)
	}
	verifier, err := NewVerifier(key, []string{"HS256"})
	if err != nil {
		b.Fatal(err)
	}
	return verifier, signed(`{"alg":"HS256","typ":"JWT"}`, `{"sub":"b@b.com","company":"ACME","exp":2532524891}`, secret)
}

func BenchmarkParse(b *testing.B) {
	verifier, token := benchmarked(b)
	b.ReportAllocs()
	b.ResetTimer()
	for i := 0; i < b.N; i++ {
		if _, err := verifier.Parse(token); err != nil {
			b.Fatal(err)
		}
	}
}

func BenchmarkParseClaims(b *testing.B) {
	verifier, token := benchmarked(b)
	b.ReportAllocs()
	b.ResetTimer()
	for i := 0; i < b.N; i++ {
		var read struct {
			RegisteredClaims
			Company string `json:"company"`
		}
		verified, err := verifier.Parse(token)
		if err == nil {
			err = verified.Claims(&read)
		}
		if err != nil {
			b.Fatal(err)
		}
	}
}

func BenchmarkParseParallel(b *testing.B) {
	verifier, token := benchmarked(b)
	b.ResetTimer()
	b.RunParallel(func(next *testing.PB) {
		for next.Next() {
			if _, err := verifier.Parse(token); err != nil {
				b.Fatal(err)
			}
		}
	})
}
