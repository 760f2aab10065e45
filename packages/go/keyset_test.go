package jwt

import (
	"bufio"
	"context"
	"crypto"
	"crypto/ecdsa"
	"crypto/ed25519"
	"crypto/elliptic"
	"crypto/sha256"
	"crypto/x509"
	"encoding/pem"
	"errors"
	"fmt"
	"io"
	"math/big"
	"net"
	"net/http"
	"net/http/httptest"
	"os"
	"path/filepath"
	"runtime"
	"strings"
	"sync"
	"sync/atomic"
	"testing"
	"time"
)

// shortly is the timeout of fetches from a server that misbehaves, and soon the time between two fetches.
const (
	shortly = 500 * time.Millisecond
	soon    = 150 * time.Millisecond
)

var eddsa = []string{"EdDSA"}

// signer returns the key of an id.
func signer(kid string) ed25519.PrivateKey {
	seed := sha256.Sum256([]byte(kid))
	return ed25519.NewKeyFromSeed(seed[:])
}

// setOf returns the set of these keys.
func setOf(kids ...string) string {
	keys := []string{}
	for _, kid := range kids {
		public := signer(kid)[ed25519.PublicKeySize:]
		keys = append(keys, fmt.Sprintf(`{"kty":"OKP","crv":"Ed25519","kid":%q,"x":%q}`, kid, part(public)))
	}
	return `{"keys":[` + strings.Join(keys, ",") + `]}`
}

// keyOf returns the key of a set of one, without the set.
func keyOf(set string) string {
	return strings.TrimSuffix(strings.TrimPrefix(set, `{"keys":[`), "]}")
}

// pemOf returns a public key in PEM.
func pemOf(t *testing.T, public crypto.PublicKey) string {
	der, err := x509.MarshalPKIXPublicKey(public)
	if err != nil {
		t.Fatal(err)
	}
	return string(pem.EncodeToMemory(&pem.Block{Type: "PUBLIC KEY", Bytes: der}))
}

// tokenOf returns a token that names a key, signed by this or by another one.
func tokenOf(kid, by string) string {
	message := part([]byte(fmt.Sprintf(`{"alg":"EdDSA","kid":%q}`, kid))) + "." + part([]byte(`{"exp":1700000001}`))
	return message + "." + part(ed25519.Sign(signer(by), []byte(message)))
}

// keyServer answers each request on the loopback as its answer does, which is given the connection.
type keyServer struct {
	uri     string
	answer  atomic.Value
	fetches atomic.Int32
	closed  chan struct{}
}

type reply = func(*keyServer, net.Conn)

func serve(t *testing.T, first reply) *keyServer {
	listening, err := net.Listen("tcp", "127.0.0.1:0")
	if err != nil {
		t.Fatal(err)
	}
	server := &keyServer{uri: "http://" + listening.Addr().String() + "/keys", closed: make(chan struct{})}
	server.answer.Store(first)
	t.Cleanup(func() { close(server.closed); listening.Close() })
	go func() {
		for {
			conn, err := listening.Accept()
			if err != nil {
				return
			}
			go func() {
				defer conn.Close()
				if _, err := http.ReadRequest(bufio.NewReader(conn)); err != nil {
					return
				}
				server.fetches.Add(1)
				now, _ := server.answer.Load().(reply)
				now(server, conn)
			}()
		}
	}()
	return server
}

func head(status string, length int, more string) string {
	return fmt.Sprintf("HTTP/1.1 %s\r\nConnection: close\r\nContent-Length: %d\r\n%s\r\n", status, length, more)
}

func says(text string) reply { return sends(head("200 OK", len(text), "") + text) }

func sends(text string) reply {
	return func(_ *keyServer, conn net.Conn) { _, _ = io.WriteString(conn, text) }
}

func hangsAfter(text string) reply {
	return func(server *keyServer, conn net.Conn) {
		_, _ = io.WriteString(conn, text)
		<-server.closed
	}
}

// dribbles sends byte by byte, so that no single read waits for long.
func dribbles(text string) reply {
	return func(server *keyServer, conn net.Conn) {
		for _, it := range []byte(text + strings.Repeat(" ", 4000)) {
			if _, err := conn.Write([]byte{it}); err != nil {
				return
			}
			select {
			case <-server.closed:
				return
			case <-time.After(10 * time.Millisecond):
			}
		}
	}
}

func endless(_ *keyServer, conn net.Conn) {
	_, err := io.WriteString(conn, "HTTP/1.1 200 OK\r\nConnection: close\r\n\r\n")
	for err == nil {
		_, err = conn.Write(make([]byte, 1<<16))
	}
}

func redirects(to string) reply { return sends(head("302 Found", 0, "Location: "+to+"\r\n")) }

// misbehaving has answers that are not a usable set, though many have the key b.
func misbehaving(t *testing.T) map[string]reply {
	set := setOf("b")
	unnamed := strings.Replace(set, `"kid":"b",`, "", 1)
	file := filepath.Join(t.TempDir(), "keys")
	if err := os.WriteFile(file, []byte(set), 0o600); err != nil {
		t.Fatal(err)
	}
	return map[string]reply{
		"hangs before the head":         hangsAfter(""),
		"hangs in the head":             hangsAfter("HTTP/1.1 200 OK\r\nConte"),
		"hangs in the body":             hangsAfter(head("200 OK", len(set), "") + set[:20]),
		"hangs after the body":          hangsAfter(head("200 OK", len(set)+1, "") + set),
		"dribbles the head":             dribbles("HTTP/1.1 200 OK\r\nX: "),
		"dribbles the body":             dribbles(head("200 OK", 100000, "") + set),
		"continues without end":         dribbles(strings.Repeat("HTTP/1.1 100 Continue\r\n\r\n", 100)),
		"cuts before the head":          sends(""),
		"cuts the head":                 sends("HTTP/1.1 200 OK\r\nConte"),
		"cuts the body":                 sends(head("200 OK", len(set), "") + set[:20]),
		"cuts a body without a length":  sends("HTTP/1.1 200 OK\r\nConnection: close\r\n\r\n" + set[:20]),
		"cuts a body in chunks":         sends(fmt.Sprintf("HTTP/1.1 200 OK\r\nTransfer-Encoding: chunked\r\n\r\n%x\r\n%s\r\n", len(set), set)),
		"says that it is longer":        sends(head("200 OK", len(set)+1, "") + set),
		"says that it is far longer":    sends(head("200 OK", 1<<62, "") + set),
		"says that it is shorter":       sends(head("200 OK", 20, "") + set),
		"says no length":                sends("HTTP/1.1 200 OK\r\nContent-Length: many\r\n\r\n" + set),
		"serves HTML":                   says("<!doctype html><p>Please log in"),
		"serves a set and 500":          sends(head("500 Oops", len(set), "") + set),
		"serves a set and 404":          sends(head("404 Not Found", len(set), "") + set),
		"serves nothing":                says(""),
		"serves 204":                    sends("HTTP/1.1 204 No Content\r\n\r\n"),
		"serves more than 1 MiB":        says(set + strings.Repeat(" ", 1<<20)),
		"serves without end":            endless,
		"serves null":                   says("null"),
		"serves a list":                 says("[]"),
		"serves no keys":                says("{}"),
		"serves an empty set":           says(`{"keys":[]}`),
		"serves keys that are no list":  says(`{"keys":{"a":1}}`),
		"serves a key without a kid":    says(unnamed),
		"serves a kid of no usable key": says(strings.Replace(unnamed, "[", `[{"kty":"oct","kid":"b","k":""},`, 1)),
		"serves one key, in no set":     says(keyOf(set)),
		"serves one key, in PEM":        says(pemOf(t, signer("b").Public())),
		"serves keys of unknown kinds":  says(`{"keys":[{"kty":"x","kid":"b"},{"kty":"EC","crv":"P-521","kid":"b","x":"AA","y":"AA"}]}`),
		"serves a point off the curve":  says(`{"keys":[{"kty":"EC","crv":"P-256","kid":"b","x":"AQAB","y":"AQAB"}]}`),
		"serves a secret that is empty": says(`{"keys":[{"kty":"oct","kid":"b","k":""}]}`),
		"serves deep lists":             says(strings.Repeat("[", 100000)),
		"serves what is not UTF-8":      says("{\"keys\":[\"\xff\"]}"),
		"serves no HTTP":                sends("\x00\x00\x00\x00\r\n\r\n"),
		"redirects to a file":           redirects("file://" + file),
		"redirects to ftp":              redirects("ftp://127.0.0.1/keys"),
		"redirects to data":             redirects("data:application/json," + set),
		"redirects to itself":           redirects("/keys"),
		"redirects to no host":          redirects("http://"),
		"redirects to no port":          redirects("http://[::1/keys"),
		"redirects to nowhere":          sends(head("302 Found", 0, "")),
	}
}

// following returns a set whose times are short, and a verifier by it.
func following(t *testing.T, uri string, with ...KeySetOption) (*KeySet, *Verifier) {
	t.Helper()
	until, cancel := context.WithCancel(context.Background())
	t.Cleanup(cancel)
	with = append([]KeySetOption{func(set *KeySet) error {
		set.refresh, set.refetch, set.timeout = time.Hour, soon, 20*time.Second
		return nil
	}}, with...)
	set, err := FetchKeySet(until, uri, nil, with...)
	for i := 0; i < 20 && err != nil; i++ {
		// on a busy machine a good answer may take long too
		set, err = FetchKeySet(until, uri, nil, with...)
	}
	if err != nil {
		t.Fatal(err)
	}
	verifier, err := NewVerifier(set.Key(), eddsa, at(now))
	if err != nil {
		t.Fatal(err)
	}
	return set, verifier
}

// wants verifies tokens, each with the kind of its refusal, or nil.
func wants(t *testing.T, verifier *Verifier, token string, want error) {
	t.Helper()
	begin := time.Now()
	if _, err := verifier.Parse(token); !errors.Is(err, want) {
		t.Errorf("%v, not %v", err, want)
	}
	if took := time.Since(begin); took > shortly+3*time.Second {
		t.Errorf("%v", took)
	}
}

func TestRotation(t *testing.T) {
	server := serve(t, says(setOf("a")))
	set, verifier := following(t, server.uri)
	wants(t, verifier, tokenOf("a", "a"), nil)
	wants(t, verifier, tokenOf("a", "b"), ErrSignature)
	if server.fetches.Load() != 1 {
		t.Error(server.fetches.Load())
	}
	before := set.Fetched()
	server.answer.Store(says(setOf("b")))
	wants(t, verifier, tokenOf("b", "b"), nil)
	wants(t, verifier, tokenOf("b", "a"), ErrSignature)
	wants(t, verifier, tokenOf("a", "a"), ErrUnknownKey)
	if server.fetches.Load() != 2 || !set.Fetched().After(before) || set.Err() != nil {
		t.Error(server.fetches.Load(), set.Err())
	}
}

// TestRefetches has many unknown kids: they cause a fetch at most every few seconds, and a token without a kid none.
func TestRefetches(t *testing.T) {
	server := serve(t, says(setOf("a")))
	_, verifier := following(t, server.uri)
	message := part([]byte(`{"alg":"EdDSA"}`)) + "." + part([]byte(`{"exp":1700000001}`))
	without := message + "." + part(ed25519.Sign(signer("a"), []byte(message)))
	first := server.fetches.Load() // on a busy machine there may be several
	wants(t, verifier, without, ErrUnknownKey)
	wants(t, verifier, tokenOf("a", "b"), ErrSignature)
	if fetches := server.fetches.Load(); fetches != first {
		t.Errorf("%d more fetches", fetches-first)
	}
	begin := time.Now()
	for i := 0; i < 20; i++ {
		wants(t, verifier, without, ErrUnknownKey)
		wants(t, verifier, tokenOf(fmt.Sprint("x", i), "a"), ErrUnknownKey)
		wants(t, verifier, "a.b.c", ErrMalformed)
	}
	if fetches := server.fetches.Load(); fetches != 2 && time.Since(begin) < soon {
		t.Error(fetches)
	}
	time.Sleep(soon + 10*time.Millisecond)
	before := server.fetches.Load()
	wants(t, verifier, tokenOf("y", "a"), ErrUnknownKey)
	if fetches := server.fetches.Load(); fetches != before+1 {
		t.Error(fetches)
	}
}

// TestMisbehaving has servers that misbehave. The last set stays, and no call takes longer than the timeout.
func TestMisbehaving(t *testing.T) {
	for name, it := range misbehaving(t) {
		it := it
		t.Run(name, func(t *testing.T) {
			t.Parallel()
			server := serve(t, says(setOf("a")))
			set, verifier := following(t, server.uri, WithTimeout(shortly))
			server.answer.Store(it)
			wants(t, verifier, tokenOf("b", "b"), ErrUnknownKey)
			// a call returns at the timeout, and the fetch ends soon after it
			err := set.Err()
			for i := 0; i < 300 && err == nil; i++ {
				time.Sleep(5 * time.Millisecond)
				err = set.Err()
			}
			if !errors.Is(err, ErrFetch) && !errors.Is(err, ErrKey) {
				t.Error(err)
			}
			wants(t, verifier, tokenOf("a", "a"), nil)
			wants(t, verifier, tokenOf("a", "b"), ErrSignature)
			server.answer.Store(says(setOf("b")))
			for i := 0; i < 300; i++ {
				if _, err = verifier.Parse(tokenOf("b", "b")); err == nil {
					break
				}
				time.Sleep(soon / 10)
			}
			wants(t, verifier, tokenOf("b", "b"), nil)
			wants(t, verifier, tokenOf("a", "a"), ErrUnknownKey)
			server.answer.Store(it)
			begin := time.Now()
			first, err := FetchKeySet(context.Background(), server.uri, nil, WithTimeout(shortly))
			if first != nil || !errors.Is(err, ErrFetch) && !errors.Is(err, ErrKey) || time.Since(begin) > shortly+3*time.Second {
				t.Error(first, err, time.Since(begin))
			}
		})
	}
}

// TestOldSet has a server that serves an old set for a while: the last set that it served decides.
func TestOldSet(t *testing.T) {
	server := serve(t, says(setOf("a")))
	_, verifier := following(t, server.uri)
	server.answer.Store(says(setOf("b")))
	wants(t, verifier, tokenOf("b", "b"), nil)
	server.answer.Store(says(setOf("a")))
	time.Sleep(soon + 10*time.Millisecond)
	wants(t, verifier, tokenOf("a", "a"), nil)
	wants(t, verifier, tokenOf("b", "b"), ErrUnknownKey)
	wants(t, verifier, tokenOf("a", "b"), ErrSignature)
	server.answer.Store(says(setOf("b", "a")))
	time.Sleep(soon + 10*time.Millisecond)
	wants(t, verifier, tokenOf("b", "b"), nil)
	wants(t, verifier, tokenOf("a", "a"), nil)
}

func TestBackground(t *testing.T) {
	server := serve(t, says(setOf("a")))
	until, cancel := context.WithCancel(context.Background())
	set, err := FetchKeySet(until, server.uri, nil, WithRefresh(10*time.Millisecond), WithRefetch(time.Hour))
	if err != nil {
		t.Fatal(err)
	}
	verifier, err := NewVerifier(set.Key(), eddsa, at(now))
	if err != nil {
		t.Fatal(err)
	}
	// a usable set that serves for none of the algorithms has no key of the token
	for _, it := range []string{setOf("b"), `{"keys":[{"kty":"oct","kid":"a","k":"c2VjcmV0"}]}`} {
		server.answer.Store(says(it))
		for i := 0; i < 200; i++ {
			if _, err = verifier.Parse(tokenOf("a", "a")); err != nil {
				break
			}
			time.Sleep(5 * time.Millisecond)
		}
		if !errors.Is(err, ErrUnknownKey) && !errors.Is(err, ErrKey) {
			t.Error(err)
		}
		server.answer.Store(says(setOf("a")))
		for i := 0; i < 200 && err != nil; i++ {
			_, err = verifier.Parse(tokenOf("a", "a"))
			time.Sleep(5 * time.Millisecond)
		}
		if err != nil {
			t.Error(err)
		}
	}
	cancel()
	time.Sleep(30 * time.Millisecond)
	fetches := server.fetches.Load()
	time.Sleep(50 * time.Millisecond)
	if server.fetches.Load() != fetches {
		t.Error("it is fetched after the end")
	}
	wants(t, verifier, tokenOf("a", "a"), nil)
	wants(t, verifier, tokenOf("b", "b"), ErrUnknownKey)
}

// TestKeySetGoroutines has many goroutines see a new kid at once: they wait for one fetch.
func TestKeySetGoroutines(t *testing.T) {
	server := serve(t, says(setOf("a")))
	_, verifier := following(t, server.uri, WithRefetch(time.Hour))
	server.answer.Store(func(server *keyServer, conn net.Conn) {
		time.Sleep(50 * time.Millisecond)
		says(setOf("b"))(server, conn)
	})
	var group sync.WaitGroup
	for i := 0; i < 100; i++ {
		group.Add(1)
		go func() {
			defer group.Done()
			if _, err := verifier.Parse(tokenOf("b", "b")); err != nil {
				t.Error(err)
			}
		}()
	}
	group.Wait()
	if server.fetches.Load() != 2 {
		t.Error(server.fetches.Load())
	}
}

// inTurns returns sets with the keys a and b, and a and c, in turns, and counts the fetches.
func inTurns(turn *atomic.Int32) Fetch {
	return func(context.Context) ([]byte, error) {
		if turn.Add(1)%2 == 0 {
			return []byte(setOf("a", "b")), nil
		}
		return []byte(setOf("a", "c")), nil
	}
}

// TestRotatingGoroutines has many goroutines verify while keys rotate, and one key stays.
func TestRotatingGoroutines(t *testing.T) {
	var turn atomic.Int32
	until, cancel := context.WithCancel(context.Background())
	defer cancel()
	set, err := NewKeySet(until, inTurns(&turn), WithRefresh(time.Millisecond), WithRefetch(time.Millisecond))
	if err != nil {
		t.Fatal(err)
	}
	verifier, err := NewVerifier(set.Key(), eddsa, at(now))
	if err != nil {
		t.Fatal(err)
	}
	stays, forged := tokenOf("a", "a"), tokenOf("a", "b")
	rotating := []string{tokenOf("b", "b"), tokenOf("c", "c")}
	var accepted [2]atomic.Int32
	end := time.Now().Add(time.Second)
	var group sync.WaitGroup
	for i := 0; i < 100; i++ {
		group.Add(1)
		go func(i int) {
			defer group.Done()
			for time.Now().Before(end) {
				wants(t, verifier, stays, nil)
				wants(t, verifier, forged, ErrSignature)
				if _, err := verifier.Parse(rotating[i%2]); err == nil {
					accepted[i%2].Add(1)
				} else if !errors.Is(err, ErrUnknownKey) {
					t.Error(err)
				}
			}
		}(i)
	}
	group.Wait()
	if accepted[0].Load() == 0 || accepted[1].Load() == 0 || turn.Load() < 10 {
		t.Error(accepted[0].Load(), accepted[1].Load(), turn.Load())
	}
}

// TestLaterAlgorithms has a set that serves for none of the algorithms of a verifier, which another set follows.
func TestLaterAlgorithms(t *testing.T) {
	server := serve(t, says(setOf("a")))
	set, verifier := following(t, server.uri)
	other := `{"keys":[{"kty":"oct","kid":"b","k":"c2VjcmV0"}]}`
	server.answer.Store(says(other))
	wants(t, verifier, tokenOf("b", "b"), ErrKey)
	if set.Err() != nil || server.fetches.Load() != 2 {
		t.Error(set.Err(), server.fetches.Load())
	}
	without := tokenOf("", "a")
	without = part([]byte(`{"alg":"EdDSA"}`)) + without[strings.Index(without, "."):]
	time.Sleep(soon + 10*time.Millisecond)
	wants(t, verifier, without, ErrKey)
	wants(t, verifier, "a.b.c", ErrKey)
	if server.fetches.Load() != 2 {
		t.Error(server.fetches.Load())
	}
	server.answer.Store(says(setOf("a")))
	wants(t, verifier, tokenOf("a", "a"), nil)
}

// TestStubborn has a function that does not end when its context does: no call waits for longer than the timeout in all, and no
// further fetch begins.
func TestStubborn(t *testing.T) {
	var calls atomic.Int32
	goOn := make(chan struct{})
	set, err := NewKeySet(context.Background(), func(context.Context) ([]byte, error) {
		if calls.Add(1) > 1 {
			<-goOn
			return []byte(setOf("b")), nil
		}
		return []byte(setOf("a")), nil
	}, WithTimeout(50*time.Millisecond), WithRefetch(time.Millisecond))
	if err != nil {
		t.Fatal(err)
	}
	verifier, err := NewVerifier(set.Key(), eddsa, at(now))
	if err != nil {
		t.Fatal(err)
	}
	begin := time.Now()
	for i := 0; i < 100; i++ {
		wants(t, verifier, tokenOf("b", "b"), ErrUnknownKey)
		wants(t, verifier, tokenOf("a", "a"), nil)
	}
	if took := time.Since(begin); took > time.Second || calls.Load() != 2 {
		t.Error(took, calls.Load())
	}
	close(goOn)
	for i := 0; i < 200 && calls.Load() == 2; i++ {
		_, _ = verifier.Parse(tokenOf("b", "b"))
		time.Sleep(5 * time.Millisecond)
	}
	wants(t, verifier, tokenOf("b", "b"), nil)
	_, err = NewKeySet(context.Background(), func(context.Context) ([]byte, error) { select {} }, WithTimeout(50*time.Millisecond))
	if !errors.Is(err, ErrFetch) {
		t.Error(err)
	}
}

// TestPanickingFetch has functions that end their goroutine: the fetch has failed, and the process goes on.
func TestPanickingFetch(t *testing.T) {
	for name, ends := range map[string]func(){
		"an error": func() { panic(errors.New("oops")) }, "nil": func() { panic(nil) }, "the goroutine": runtime.Goexit,
		"a nil map": func() { map[string]int(nil)["a"] = 1 },
	} {
		var calls atomic.Int32
		set, err := NewKeySet(context.Background(), func(context.Context) ([]byte, error) {
			if calls.Add(1) > 1 {
				ends()
			}
			return []byte(setOf("a")), nil
		})
		if err != nil {
			t.Fatal(name, err)
		}
		verifier, err := NewVerifier(set.Key(), eddsa, at(now))
		if err != nil {
			t.Fatal(name, err)
		}
		wants(t, verifier, tokenOf("b", "b"), ErrFetch)
		wants(t, verifier, tokenOf("a", "a"), nil)
		if !errors.Is(set.Err(), ErrFetch) {
			t.Error(name, set.Err())
		}
		if first, err := NewKeySet(context.Background(), func(context.Context) ([]byte, error) { ends(); return nil, nil }); first != nil || !errors.Is(err, ErrFetch) {
			t.Error(name, first, err)
		}
	}
}

// TestUndecided has tokens whose key may be in the set that the server does not give: that says nothing about them, so that both kinds are
// seen. The set that is there refuses as before.
func TestUndecided(t *testing.T) {
	server := serve(t, says(setOf("a")))
	set, verifier := following(t, server.uri, WithRefetch(time.Hour))
	before := server.fetches.Load() // on a busy machine there may be several
	decided := func(token string, want error) {
		t.Helper()
		if _, err := verifier.Parse(token); !errors.Is(err, want) || errors.Is(err, ErrFetch) {
			t.Error(err)
		}
	}
	decided(tokenOf("b", "b"), ErrUnknownKey)
	set.from = time.Time{}
	server.answer.Store(sends(head("503 Service Unavailable", 0, "")))
	for i := 0; i < 3; i++ { // the first causes a fetch, and the others come in the pause after it
		_, err := verifier.Parse(tokenOf("b", "b"))
		var refused *Error
		if !errors.Is(err, ErrFetch) || !errors.Is(err, ErrUnknownKey) || !errors.As(err, &refused) || refused.Test != "KeyIsFound" ||
			!strings.Contains(err.Error(), server.uri+": the status is 503") {
			t.Error(err)
		}
	}
	decided(tokenOf("a", "b"), ErrSignature)
	decided("a.b.c", ErrMalformed)
	set.from = time.Time{}
	server.answer.Store(says(`{"keys":[{"kty":"oct","kid":"b","k":"c2VjcmV0"}]}`))
	decided(tokenOf("b", "b"), ErrKey)
	set.from = time.Time{}
	server.answer.Store(says("<!doctype html>"))
	if _, err := verifier.Parse(tokenOf("b", "b")); !errors.Is(err, ErrFetch) || !errors.Is(err, ErrKey) {
		t.Error(err)
	}
	if fetches := server.fetches.Load() - before; fetches != 4 {
		t.Error(fetches)
	}
}

// multiples returns the set of the first multiples of the base point of P-256, each named by its number in hexadecimal, which is its private
// key.
func multiples(last int) string {
	keys := make([]string, last)
	for i := range keys {
		x, y := elliptic.P256().ScalarBaseMult(big.NewInt(int64(i + 1)).Bytes())
		keys[i] = fmt.Sprintf(`{"kty":"EC","crv":"P-256","kid":"%x","x":%q,"y":%q}`, i+1, part(x.FillBytes(make([]byte, 32))), part(y.FillBytes(make([]byte, 32))))
	}
	return `{"keys":[` + strings.Join(keys, ",") + `]}`
}

// tokenOfMultiple returns a token that names a multiple of the base point, signed with it.
func tokenOfMultiple(t *testing.T, number int) string {
	t.Helper()
	key := &ecdsa.PrivateKey{D: big.NewInt(int64(number))}
	key.Curve = elliptic.P256()
	key.X, key.Y = key.ScalarBaseMult(key.D.Bytes())
	made, err := NewSigner(key, "ES256", WithKeyID(fmt.Sprintf("%x", number)))
	if err != nil {
		t.Fatal(err)
	}
	token, err := made.Sign(map[string]any{"exp": now + 1})
	if err != nil {
		t.Fatal(err)
	}
	return token
}

// longestCall has a large set follow one of a single key, and returns how long the longest call with that key takes in the meantime.
func longestCall(t *testing.T, large string, known, later, unknown string) time.Duration {
	t.Helper()
	var text atomic.Value
	text.Store(multiples(1))
	until, cancel := context.WithCancel(context.Background())
	defer cancel()
	set, err := NewKeySet(until, func(context.Context) ([]byte, error) { return []byte(fmt.Sprint(text.Load())), nil }, WithRefetch(time.Nanosecond))
	if err != nil {
		t.Fatal(err)
	}
	verifier, err := NewVerifier(set.Key(), []string{"ES256"}, at(now))
	if err != nil {
		t.Fatal(err)
	}
	text.Store(large)
	begin, ended := time.Now(), make(chan struct{})
	go func() {
		wants(t, verifier, later, nil)
		close(ended)
	}()
	longest := time.Duration(0)
	for isUnderWay := true; isUnderWay; {
		select {
		case <-ended:
			isUnderWay = false
		default:
		}
		called := time.Now()
		wants(t, verifier, known, nil)
		if took := time.Since(called); took > longest {
			longest = took
		}
	}
	t.Logf("%d bytes, usable after %v, the longest call took %v", len(large), time.Since(begin), longest)
	before, fetched := verifier.made.latest(), set.Fetched()
	wants(t, verifier, unknown, ErrUnknownKey)
	if verifier.made.latest() != before || !set.Fetched().After(fetched) {
		t.Error("the handles of the same text are made again")
	}
	return longest
}

// TestLargeSet has a set of almost 1 MiB. To prepare all its keys would take seconds. No call waits for it; on a busy machine one may be
// late now and then.
func TestLargeSet(t *testing.T) {
	const count = 7500
	large := multiples(count)
	if len(large) > largestSet || len(large) < 1000000 {
		t.Fatal(len(large))
	}
	known, later, unknown := tokenOfMultiple(t, 1), tokenOfMultiple(t, count), tokenOfMultiple(t, count+1)
	for i := 0; i < 3; i++ {
		if longestCall(t, large, known, later, unknown) < 200*time.Millisecond {
			return
		}
	}
	t.Error("a call waits for more than 200 ms each time")
}

// TestKeptHandles has verifiers with the same options, which share their handles, and with more other options than are kept.
func TestKeptHandles(t *testing.T) {
	server := serve(t, says(setOf("a")))
	set, verifier := following(t, server.uri)
	same, err := NewVerifier(set.Key(), eddsa, at(now-1))
	if err != nil || same.made.latest() != verifier.made.latest() {
		t.Error(err)
	}
	for i := 0; i < 2*mostKept; i++ {
		other, err := NewVerifier(set.Key(), eddsa, at(now), WithIssuer(fmt.Sprint(i)))
		if err != nil {
			t.Fatal(err)
		}
		wants(t, other, tokenOf("a", "a"), ErrMissingClaim)
	}
	server.answer.Store(says(setOf("b")))
	for _, it := range []*Verifier{verifier, same} {
		wants(t, it, tokenOf("b", "b"), nil)
		wants(t, it, tokenOf("a", "a"), ErrUnknownKey)
	}
	if kept := len(set.current.Load().kept); kept != mostKept {
		t.Error(kept)
	}
}

// TestWaiting has more tokens with unknown kids than may wait for a fetch: the others are answered at once, and so are known kids.
func TestWaiting(t *testing.T) {
	goOn := make(chan struct{})
	var calls atomic.Int32
	set, err := NewKeySet(context.Background(), func(context.Context) ([]byte, error) {
		if calls.Add(1) > 1 {
			<-goOn
			return []byte(setOf("a", "b")), nil
		}
		return []byte(setOf("a")), nil
	}, WithTimeout(time.Hour))
	if err != nil {
		t.Fatal(err)
	}
	verifier, err := NewVerifier(set.Key(), eddsa, at(now))
	if err != nil {
		t.Fatal(err)
	}
	answers := make(chan error)
	for i := 0; i < mostWaiting+5; i++ {
		go func() {
			_, err := verifier.Parse(tokenOf("b", "b"))
			answers <- err
		}()
	}
	for i := 0; i < 5; i++ {
		if err := <-answers; !errors.Is(err, ErrFetch) || !errors.Is(err, ErrUnknownKey) || !strings.Contains(err.Error(), "1000") {
			t.Error(err)
		}
	}
	wants(t, verifier, tokenOf("a", "a"), nil)
	close(goOn)
	for i := 0; i < mostWaiting; i++ {
		if err := <-answers; err != nil {
			t.Error(err)
		}
	}
	if calls.Load() != 2 || set.waiting != 0 {
		t.Error(calls.Load(), set.waiting)
	}
}

// TestLazyStart has a key server that is down at first: nothing waits for it at the start, and nothing is decided until there is a set.
func TestLazyStart(t *testing.T) {
	server := serve(t, sends(""))
	until, cancel := context.WithCancel(context.Background())
	defer cancel()
	set, err := FetchKeySet(until, server.uri, nil, WithLazyStart(), WithRefetch(soon))
	if err != nil {
		t.Fatal(err)
	}
	for _, algorithms := range [][]string{{"ES256K"}, nil} {
		if _, err := NewVerifier(set.Key(), algorithms); !errors.Is(err, ErrOption) {
			t.Error(algorithms, err)
		}
	}
	if _, err := NewVerifier(set.Key(), []string{"RS256", "EdDSA"}); err != nil {
		t.Error(err)
	}
	verifier, err := NewVerifier(set.Key(), eddsa, at(now))
	if err != nil {
		t.Fatal(err)
	}
	message := part([]byte(`{"alg":"EdDSA"}`)) + "." + part([]byte(`{"exp":1700000001}`))
	for _, it := range []string{tokenOf("a", "a"), message + "." + part(ed25519.Sign(signer("a"), []byte(message))), "a.b.c", ""} {
		wants(t, verifier, it, ErrFetch)
	}
	if !errors.Is(set.Err(), ErrFetch) || !set.Fetched().IsZero() {
		t.Error(set.Err(), set.Fetched())
	}
	server.answer.Store(says(setOf("a")))
	for i := 0; i < 300 && err == nil; i++ {
		if _, refused := verifier.Parse(tokenOf("a", "a")); refused == nil {
			break
		}
		time.Sleep(soon / 10)
	}
	wants(t, verifier, tokenOf("a", "a"), nil)
	wants(t, verifier, "a.b.c", ErrMalformed)
	if set.Err() != nil || set.Fetched().IsZero() {
		t.Error(set.Err(), set.Fetched())
	}
}

// TestLazyStartInBackground has no token that asks for a set: it is fetched all the same, also after fetches that fail. Tokens that come while
// the first fetch is under way wait for it.
func TestLazyStartInBackground(t *testing.T) {
	var calls atomic.Int32
	until, cancel := context.WithCancel(context.Background())
	defer cancel()
	set, err := NewKeySet(until, func(context.Context) ([]byte, error) {
		if calls.Add(1) < 3 {
			return nil, errors.New("not yet")
		}
		return []byte(setOf("a")), nil
	}, WithLazyStart(), WithRefetch(time.Millisecond))
	if err != nil {
		t.Fatal(err)
	}
	for i := 0; i < 1000 && set.Err() != nil; i++ {
		time.Sleep(5 * time.Millisecond)
	}
	if set.Err() != nil || calls.Load() != 3 {
		t.Error(set.Err(), calls.Load())
	}
	ended, end := context.WithCancel(until)
	end()
	if never, err := FetchKeySet(ended, "http://127.0.0.1:1/", nil, WithLazyStart()); err != nil {
		t.Error(err)
	} else if verifier, err := NewVerifier(never.Key(), eddsa); err != nil {
		t.Error(err)
	} else {
		wants(t, verifier, tokenOf("a", "a"), ErrFetch)
		if !errors.Is(never.Err(), ErrFetch) || !errors.Is(never.Err(), context.Canceled) {
			t.Error(never.Err())
		}
	}
	goOn := make(chan struct{})
	slow, err := NewKeySet(until, func(context.Context) ([]byte, error) { <-goOn; return []byte(setOf("a")), nil }, WithLazyStart(), WithTimeout(time.Hour))
	if err != nil {
		t.Fatal(err)
	}
	verifier, err := NewVerifier(slow.Key(), eddsa, at(now))
	if err != nil || !errors.Is(slow.Err(), ErrFetch) {
		t.Fatal(err, slow.Err())
	}
	answer := make(chan error)
	go func() {
		_, err := verifier.Parse(tokenOf("a", "a"))
		answer <- err
	}()
	for isWaiting := false; !isWaiting; time.Sleep(time.Millisecond) {
		slow.mutex.Lock()
		isWaiting = slow.waiting == 1
		slow.mutex.Unlock()
	}
	close(goOn)
	if err := <-answer; err != nil {
		t.Error(err)
	}
}

func TestManyKeys(t *testing.T) {
	keys := []string{strings.TrimSuffix(setOf("9999"), "]}")}
	for i := 0; i < 9999; i++ {
		other := sha256.Sum256([]byte{byte(i), byte(i >> 8)})
		keys = append(keys, fmt.Sprintf(`{"kty":"OKP","crv":"Ed25519","kid":"%x","x":%q}`, i, part(other[:])))
	}
	many := strings.Join(keys, ",") + "]}"
	if len(many) > largestSet {
		t.Fatal(len(many))
	}
	server := serve(t, says(many))
	_, verifier := following(t, server.uri, WithRefetch(time.Hour))
	if _, err := verifier.Parse(tokenOf("x", "x")); !errors.Is(err, ErrUnknownKey) {
		t.Error(err)
	}
	// the set is not read for each token
	known, forged, unknown := tokenOf("9999", "9999"), tokenOf("9999", "9998"), tokenOf("x", "x")
	begin := time.Now()
	for i := 0; i < 50; i++ {
		wants(t, verifier, known, nil)
		wants(t, verifier, forged, ErrSignature)
		wants(t, verifier, unknown, ErrUnknownKey)
	}
	if took := time.Since(begin); took > time.Second {
		t.Error(took)
	}
}

// TestKeysOfOneKid has a set that stays and is fetched. Of several keys with one kid the first usable one counts. A key whose alg is not one of
// its kind is not usable.
func TestKeysOfOneKid(t *testing.T) {
	keys := strings.TrimSuffix(strings.Replace(setOf("a", "b", "c", "d"), "[", `[{"kty":"oct","kid":"x","k":""},`, 1), "]}")
	keys = strings.Replace(strings.Replace(keys, `"kid":"a"`, `"kid":"x"`, 1), `"kid":"b"`, `"kid":"x"`, 1)
	keys = strings.Replace(keys, `"kid":"c"`, `"kid":"c","alg":"ES256"`, 1)
	text := strings.Replace(keys, `"kid":"d"`, `"kid":"e","k\u0069d":"\u0064"`, 1) + "]}"
	whole, err := ParseJWKSet([]byte(text))
	if err != nil {
		t.Fatal(err)
	}
	set, err := NewKeySet(context.Background(), func(context.Context) ([]byte, error) { return []byte(text), nil })
	if err != nil {
		t.Fatal(err)
	}
	for _, key := range []Key{whole, set.Key()} {
		verifier, err := NewVerifier(key, eddsa, at(now))
		if err != nil {
			t.Fatal(err)
		}
		wants(t, verifier, tokenOf("x", "a"), nil)
		wants(t, verifier, tokenOf("x", "b"), ErrSignature)
		wants(t, verifier, tokenOf("c", "c"), ErrUnknownKey)
		wants(t, verifier, tokenOf("d", "d"), nil)
		wants(t, verifier, tokenOf("e", "d"), ErrUnknownKey)
		wants(t, verifier, tokenOf("", "a"), ErrUnknownKey)
	}
}

func TestRedirects(t *testing.T) {
	target := serve(t, says(setOf("a")))
	server := serve(t, redirects(target.uri))
	_, verifier := following(t, server.uri)
	wants(t, verifier, tokenOf("a", "a"), nil)
	secure := httptest.NewTLSServer(http.HandlerFunc(func(to http.ResponseWriter, of *http.Request) { http.Redirect(to, of, target.uri, http.StatusFound) }))
	defer secure.Close()
	_, err := FetchKeySet(context.Background(), secure.URL, secure.Client())
	if !errors.Is(err, ErrFetch) || !strings.Contains(err.Error(), "from https to http") {
		t.Error(err)
	}
	missing := serve(t, sends(head("404 Not Found", 0, "")))
	_, err = FetchKeySet(context.Background(), strings.Replace(missing.uri, "http://", "http://user:password@", 1), nil)
	if !errors.Is(err, ErrFetch) || !strings.Contains(err.Error(), "@"+strings.TrimPrefix(missing.uri, "http://")+": the status is 404") || strings.Contains(err.Error(), "password") {
		t.Error(err)
	}
	upgrading := serve(t, redirects(secure.URL))
	if _, err = FetchKeySet(context.Background(), upgrading.uri, secure.Client()); !errors.Is(err, ErrFetch) || !strings.Contains(err.Error(), "from https to http") {
		t.Error(err)
	}
	stops := &http.Client{CheckRedirect: func(*http.Request, []*http.Request) error { return errors.New("no redirects") }}
	if _, err = FetchKeySet(context.Background(), server.uri, stops); !errors.Is(err, ErrFetch) || !strings.Contains(err.Error(), "no redirects") {
		t.Error(err)
	}
}

// TestKeySetArguments has arguments that can't be right: each is an error that names the argument.
func TestKeySetArguments(t *testing.T) {
	good := func(context.Context) ([]byte, error) { return []byte(setOf("a")), nil }
	until := context.Background()
	for _, it := range []struct {
		name string
		made func() (*KeySet, error)
	}{
		{"fetch", func() (*KeySet, error) { return NewKeySet(until, nil) }},
		//lint:ignore SA1012 a nil context is an error
		{"ctx", func() (*KeySet, error) { return NewKeySet(nil, good) }},
		{"place 1", func() (*KeySet, error) { return NewKeySet(until, good, WithRefresh(1), nil) }},
		{"WithRefresh", func() (*KeySet, error) { return NewKeySet(until, good, WithRefresh(0)) }},
		{"WithRefetch", func() (*KeySet, error) { return NewKeySet(until, good, WithRefetch(-1)) }},
		{"WithTimeout", func() (*KeySet, error) { return NewKeySet(until, good, WithTimeout(-time.Second)) }},
		{"WithRefresh is given twice", func() (*KeySet, error) { return NewKeySet(until, good, WithRefresh(1), WithRefresh(1)) }},
		{"WithRefetch is given twice", func() (*KeySet, error) { return NewKeySet(until, good, WithRefetch(1), WithRefetch(2)) }},
		{"WithSkippedKeys has no function", func() (*KeySet, error) { return NewKeySet(until, good, WithSkippedKeys(nil)) }},
		{"WithSkippedKeys is given twice", func() (*KeySet, error) {
			return NewKeySet(until, good, WithSkippedKeys(func(SkippedKey) {}), WithSkippedKeys(func(SkippedKey) {}))
		}},
		{"WithTimeout is given twice", func() (*KeySet, error) { return NewKeySet(until, good, WithTimeout(1), WithTimeout(2)) }},
		{"uri", func() (*KeySet, error) { return FetchKeySet(until, "", nil) }},
		{"uri", func() (*KeySet, error) { return FetchKeySet(until, "/keys", nil) }},
		{"uri", func() (*KeySet, error) { return FetchKeySet(until, "https://", nil) }},
		{"uri", func() (*KeySet, error) { return FetchKeySet(until, "http://h\n/", nil) }},
		{"uri", func() (*KeySet, error) { return FetchKeySet(until, "file:///etc/passwd", nil) }},
		{"uri", func() (*KeySet, error) { return FetchKeySet(until, "ftp://h/keys", nil) }},
	} {
		if set, err := it.made(); set != nil || !errors.Is(err, ErrOption) || !strings.Contains(err.Error(), it.name) {
			t.Errorf("%s: %v, %v", it.name, set, err)
		}
	}
	for _, it := range []*KeySet{nil, {}} {
		if _, err := NewVerifier(it.Key(), eddsa); !errors.Is(err, ErrKey) || !errors.Is(it.Err(), ErrOption) || !it.Fetched().IsZero() {
			t.Error(err, it.Err(), it.Fetched())
		}
	}
	before := runtime.NumGoroutine()
	ended, cancel := context.WithCancel(until)
	cancel()
	if _, err := NewKeySet(ended, good); !errors.Is(err, ErrFetch) || runtime.NumGoroutine() > before+2 {
		t.Error(err)
	}
	set, err := NewKeySet(until, good)
	if err != nil {
		t.Fatal(err)
	}
	verifier, err := NewVerifier(set.Key(), eddsa, at(now))
	if err != nil {
		t.Fatal(err)
	}
	wants(t, verifier, tokenOf("a", "a"), nil)
	for _, verb := range []string{"%v", "%+v", "%#v", "%s", "%q", "%x", "%d"} {
		text := fmt.Sprintf(verb, set) + fmt.Sprintf(verb, []any{set.Key(), verifier, struct{ of any }{set.Key()}})
		if strings.Contains(text, "Ed25519") || strings.Contains(text, "45643235") {
			t.Error(text)
		}
	}
}

// TestServes has keys and sets that serve for none of the algorithms.
func TestServes(t *testing.T) {
	rsa17 := `{"kty":"RSA","kid":"a","n":"AQAB","e":"AQAB"}`
	offCurve := `{"kty":"EC","kid":"a","crv":"P-256","x":"AQAB","y":"AQAB"}`
	secretJWK := `{"kty":"oct","kid":"a","k":"c2VjcmV0"}`
	unnamed := strings.Replace(setOf("a"), `"kid":"a",`, "", 1)
	set := func(keys ...string) string { return `{"keys":[` + strings.Join(keys, ",") + `]}` }
	ed := strings.TrimSuffix(strings.TrimPrefix(setOf("b"), `{"keys":[`), `]}`)
	for _, it := range []struct {
		text       string
		algorithms []string
		serves     bool
	}{
		{setOf("a"), eddsa, true},
		{setOf("a"), []string{"HS256"}, false},
		{setOf("a"), []string{"ES256", "ES384"}, false},
		{setOf("a"), []string{"EdDSA", "RS256"}, true},
		{unnamed, eddsa, false},
		{set(strings.Replace(ed, `"kid":"b",`, "", 1), secretJWK), eddsa, false},
		{set(rsa17), []string{"RS256"}, false},
		{set(rsa17, offCurve, secretJWK), []string{"RS256", "PS384"}, false},
		{set(offCurve), []string{"ES256"}, false},
		{set(secretJWK), []string{"RS256"}, false},
		{set(secretJWK), []string{"HS512", "HS256"}, true},
		{set(rsa17, offCurve, ed), eddsa, true},
		// a key with an alg that is not listed does not count
		{set(`{"kty":"oct","kid":"a","k":"c2VjcmV0","alg":"HS384"}`), []string{"HS256"}, false},
		{set(`{"kty":"oct","kid":"a","k":"c2VjcmV0","alg":"HS384"}`), []string{"HS256", "HS384"}, true},
	} {
		key, err := ParseJWKSet([]byte(it.text))
		if err == nil {
			_, err = NewVerifier(key, it.algorithms)
		}
		if it.serves && err != nil || !it.serves && !errors.Is(err, ErrKey) {
			t.Errorf("%s %v: %v", it.text, it.algorithms, err)
		}
	}
	for _, it := range []string{rsa17, offCurve} {
		if key, err := ParseJWK([]byte(it)); !errors.Is(err, ErrKey) {
			t.Errorf("%s: %v, %v", it, key, err)
		}
	}
	if _, err := NewVerifier(secretOf(t, secret), []string{"RS256"}); !errors.Is(err, ErrKey) || !strings.Contains(err.Error(), "RS256") {
		t.Error(err)
	}
	if _, err := ParseJWKSet([]byte(unnamed)); !errors.Is(err, ErrKey) || !strings.Contains(err.Error(), "kid") {
		t.Error(err)
	}
}
