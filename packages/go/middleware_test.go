package jwt

import (
	"context"
	"errors"
	"net/http"
	"net/http/httptest"
	"strings"
	"testing"
	"time"
)

// greets answers with the subject of the claims, and counts how often it is called.
type greets struct{ calls int }

func (g *greets) ServeHTTP(to http.ResponseWriter, request *http.Request) {
	g.calls++
	token, isToken := TokenFromContext(request.Context())
	claims, is := FromContext[session](request.Context())
	if _, other := FromContext[RegisteredClaims](request.Context()); !isToken || !is || other || !strings.Contains(string(token.RawClaims()), claims.Subject) {
		to.WriteHeader(http.StatusTeapot)
	}
	_, _ = to.Write([]byte("hello " + claims.Subject))
}

func isAdmin(request *http.Request, _ *Token) bool {
	claims, is := FromContext[session](request.Context())
	return is && claims.Role == "admin"
}

// asked returns the answer to a request with these values of a header.
func asked(guarded http.Handler, header string, values ...string) *httptest.ResponseRecorder {
	request := httptest.NewRequest(http.MethodGet, "/", nil)
	for _, it := range values {
		request.Header.Add(header, it)
	}
	got := httptest.NewRecorder()
	guarded.ServeHTTP(got, request)
	return got
}

// guarding returns the handler behind Middleware, and the error that was logged last.
func guarding(t *testing.T, verifier *Verifier, opts ...MiddlewareOption) (http.Handler, *greets, *error) {
	t.Helper()
	logged, handler := new(error), &greets{}
	opts = append(opts, WithClaims[session](), WithLog(func(_ *http.Request, err error) { *logged = err }))
	protect, err := Middleware(verifier, opts...)
	if err != nil {
		t.Fatal(err)
	}
	return protect(handler), handler, logged
}

// TestMiddleware has the answers to requests with each kind of token.
func TestMiddleware(t *testing.T) {
	verifier, err := NewVerifier(secretOf(t, secret), []string{"HS256"}, at(now))
	if err != nil {
		t.Fatal(err)
	}
	token := func(claims string) string { return signed(`{"alg":"HS256"}`, claims, secret) }
	good := token(`{"exp":1700000001,"sub":"ada","role":"admin"}`)
	const plain, invalid = `Bearer realm="api"`, `Bearer realm="api", error="invalid_token"`
	for _, it := range []struct {
		name          string
		authorization []string
		status        int
		challenge     string
		logged        error
	}{
		{"a token", []string{"Bearer " + good}, 200, "", nil},
		{"the scheme in other letters", []string{"bEARER  " + good}, 200, "", nil},
		{"no header", nil, 401, plain, ErrNoToken},
		{"an empty header", []string{""}, 401, plain, ErrNoToken},
		{"another scheme", []string{"Basic YTpi"}, 401, plain, ErrNoToken},
		{"no scheme", []string{good}, 401, plain, ErrNoToken},
		{"no space", []string{"Bearer" + good}, 401, plain, ErrNoToken},
		{"no token", []string{"Bearer"}, 401, invalid, ErrMalformed},
		{"spaces", []string{"Bearer   "}, 401, invalid, ErrMalformed},
		{"a tab", []string{"Bearer \t" + good}, 401, invalid, ErrMalformed},
		{"two tokens", []string{"Bearer " + good + " " + good}, 401, invalid, ErrMalformed},
		{"two headers", []string{"Bearer " + good, "Bearer " + good}, 400, `Bearer realm="api", error="invalid_request"`, ErrRequest},
		{"expired", []string{"Bearer " + token(`{"exp":1700000000,"role":"admin"}`)}, 401, invalid, ErrExpired},
		{"forged", []string{"Bearer " + signed(`{"alg":"HS256"}`, `{"exp":1700000001,"role":"admin"}`, []byte("x"))}, 401, invalid, ErrSignature},
		{"too long", []string{"Bearer " + strings.Repeat("a", 1<<20+1)}, 401, invalid, ErrMalformed},
		{"refused by Validate", []string{"Bearer " + token(`{"exp":1700000001,"role":"user"}`)}, 401, invalid, ErrInvalidClaims},
		{"a claim of another type", []string{"Bearer " + token(`{"exp":1700000001,"role":5}`)}, 401, invalid, ErrMalformedClaim},
		{"a name in other letters", []string{"Bearer " + token(`{"exp":1700000001,"role":"","Role":"admin"}`)}, 401, invalid, ErrMalformed},
		{"not allowed", []string{"Bearer " + token(`{"exp":1700000001,"sub":"bob"}`)}, 403, `Bearer realm="api", error="insufficient_scope"`, ErrDenied},
	} {
		guarded, handler, logged := guarding(t, verifier, WithAccess(isAdmin))
		got := asked(guarded, "Authorization", it.authorization...)
		if got.Code != it.status || got.Header().Get("WWW-Authenticate") != it.challenge || !errors.Is(*logged, it.logged) || handler.calls != map[bool]int{true: 1}[it.status == 200] {
			t.Errorf("%s: %d, %v, %v, %d calls", it.name, got.Code, got.Header(), *logged, handler.calls)
		}
		if body := strings.TrimSpace(got.Body.String()); it.status != 200 && body != http.StatusText(it.status) || it.status == 200 && body != "hello ada" {
			t.Errorf("%s: %q", it.name, body)
		}
	}
}

// TestMiddlewareWithoutVerdict has tokens on which nothing is decided: the answer says that it is not the token's fault.
func TestMiddlewareWithoutVerdict(t *testing.T) {
	server := serve(t, says(strings.Replace(setOf("a"), `{"keys":[`, `{"keys":[{"kty":"oct","kid":"o","k":"c2VjcmV0"},`, 1)))
	set, verifier := following(t, server.uri, WithRefetch(time.Nanosecond))
	guarded, _, logged := guarding(t, verifier, WithRealm("a realm"))
	ask := func(token string, status int, want error) {
		t.Helper()
		got := asked(guarded, "Authorization", "Bearer "+token)
		if got.Code != status || !errors.Is(*logged, want) || (got.Header().Get("WWW-Authenticate") == `Bearer realm="a realm", error="invalid_token"`) != (status == 401) {
			t.Errorf("%d, %v, %v", got.Code, got.Header(), *logged)
		}
	}
	ask(tokenOf("a", "a"), 200, nil)
	ask(tokenOf("b", "b"), 401, ErrUnknownKey)
	ask(tokenOf("o", "b"), 401, ErrKey) // the token chose a key of another kind
	server.answer.Store(sends(""))
	ask(tokenOf("b", "b"), 503, ErrFetch)
	ask(tokenOf("a", "b"), 401, ErrSignature)
	server.answer.Store(says(`{"keys":[{"kty":"oct","kid":"o","k":"c2VjcmV0"}]}`))
	ask(tokenOf("b", "b"), 500, ErrKey)
	if set.Err() != nil {
		t.Error(set.Err())
	}
	early, err := NewVerifier(secretOf(t, secret), []string{"HS256"}, at(-1))
	if err != nil {
		t.Fatal(err)
	}
	guarded, _, logged = guarding(t, early)
	ask(signed(`{"alg":"HS256"}`, `{"exp":1}`, secret), 500, ErrOption)
}

// TestNoTokenInText has requests without a token: the error says where it was looked for.
func TestNoTokenInText(t *testing.T) {
	verifier, err := NewVerifier(secretOf(t, secret), []string{"HS256"})
	if err != nil {
		t.Fatal(err)
	}
	finds := WithTokenFrom(func(*http.Request) string { return "" })
	for _, it := range []struct {
		values []string
		with   []MiddlewareOption
		text   string
	}{
		{nil, nil, "there is no header Authorization"},
		{[]string{"eyJh.e30.AAAA"}, nil, `does not begin with "Bearer "`},
		{[]string{"Bearer a"}, []MiddlewareOption{finds}, "the function of WithTokenFrom found none"},
	} {
		guarded, _, logged := guarding(t, verifier, it.with...)
		asked(guarded, "Authorization", it.values...)
		if !errors.Is(*logged, ErrNoToken) || !strings.Contains((*logged).Error(), it.text) {
			t.Error(*logged)
		}
	}
}

// TestTokenFrom has the token in a cookie, and not in the header.
func TestTokenFrom(t *testing.T) {
	verifier, err := NewVerifier(secretOf(t, secret), []string{"HS256"}, at(now))
	if err != nil {
		t.Fatal(err)
	}
	guarded, _, logged := guarding(t, verifier, WithTokenFrom(func(request *http.Request) string {
		cookie, err := request.Cookie("session")
		if err != nil {
			return ""
		}
		return cookie.Value
	}))
	good := signed(`{"alg":"HS256"}`, `{"exp":1700000001,"sub":"ada"}`, secret)
	if got := asked(guarded, "Cookie", "session="+good); got.Code != 200 {
		t.Error(got.Code, *logged)
	}
	for _, it := range [][2]string{{"Authorization", "Bearer " + good}, {"Cookie", "other=" + good}, {"Cookie", "session="}} {
		if got := asked(guarded, it[0], it[1]); got.Code != 401 || !errors.Is(*logged, ErrNoToken) {
			t.Error(it, got.Code, *logged)
		}
	}
}

// TestMiddlewareSlips has arguments that can't be right.
func TestMiddlewareSlips(t *testing.T) {
	verifier, err := NewVerifier(secretOf(t, secret), []string{"HS256"})
	if err != nil {
		t.Fatal(err)
	}
	for _, it := range []*Verifier{nil, {}} {
		if protect, err := Middleware(it); protect != nil || !errors.Is(err, ErrOption) {
			t.Error(err)
		}
	}
	for i, it := range []MiddlewareOption{
		nil, WithTokenFrom(nil), WithRealm(""), WithRealm(`a"b`), WithRealm(`a\b`), WithRealm("a\nb"), WithRealm("caf\u00e9"), WithRealm("\xff"), WithAccess(nil), WithLog(nil),
		WithClaims[int](), WithClaims[[]string](), WithClaims[chan int](),
	} {
		if protect, err := Middleware(verifier, it); protect != nil || !errors.Is(err, ErrOption) {
			t.Errorf("%d: %v", i, err)
		}
	}
	finds, logs := func(*http.Request) string { return "" }, func(*http.Request, error) {}
	for _, it := range [][]MiddlewareOption{{WithRealm("a"), WithRealm("b")}, {WithTokenFrom(finds), WithTokenFrom(finds)}, {WithLog(logs), WithLog(logs)}} {
		if protect, err := Middleware(verifier, it...); protect != nil || !errors.Is(err, ErrOption) || !strings.Contains(err.Error(), " is given twice: ") {
			t.Error(err)
		}
	}
	for i, it := range []MiddlewareOption{WithClaims[map[string]any](), WithClaims[any](), WithClaims[session](), WithClaims[readsItself](), WithClaims[*session]()} {
		if _, err := Middleware(verifier, it); err != nil {
			t.Errorf("%d: %v", i, err)
		}
	}
	if _, is := TokenFromContext(context.Background()); is {
		t.Error("there is a token")
	}
	if claims, is := FromContext[session](context.Background()); is || claims != nil {
		t.Error("there are claims")
	}
}
