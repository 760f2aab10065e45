//go:build cgo && linux && amd64

package jwt

import (
	"context"
	"errors"
	"fmt"
	"net/http"
	"strings"
)

// The kinds of refusals of a request, besides those of its token.
var (
	// ErrNoToken is a request that has no token. The text of the error says where it was looked for.
	ErrNoToken = errors.New("jwt: the request has no token")
	// ErrRequest is a request that has several headers Authorization.
	ErrRequest = errors.New("jwt: the request has several headers Authorization")
	// ErrDenied is a request that a function of WithAccess does not allow.
	ErrDenied = errors.New("jwt: the request is not allowed")
)

// guard decides on requests.
type guard struct {
	verifier *Verifier
	token    func(*http.Request) (string, error)
	realm    string
	reads    []func(context.Context, *Token) (context.Context, error)
	access   []func(*http.Request, *Token) bool
	log      func(*http.Request, error)
	given    onlyOnce
}

// MiddlewareOption changes what Middleware does. Only WithClaims and WithAccess may be given several times.
type MiddlewareOption func(*guard) error

// WithTokenFrom takes the token from what this function returns, such as the value of a cookie, instead of the header Authorization. An
// empty text means that the request has none.
func WithTokenFrom(find func(*http.Request) string) MiddlewareOption {
	return func(by *guard) error {
		if find == nil {
			return optionError("WithTokenFrom has no function")
		}
		by.token = func(request *http.Request) (string, error) {
			token := find(request)
			if token == "" {
				return "", fmt.Errorf("%w: the function of WithTokenFrom found none", ErrNoToken)
			}
			return token, nil
		}
		return by.given.add("WithTokenFrom", leaveOneOut)
	}
}

// WithRealm names the realm in answers (RFC 7235 section 2.2), by printable ASCII without quotation marks and backslashes. It is "api"
// without this option.
func WithRealm(realm string) MiddlewareOption {
	return func(by *guard) error {
		for _, it := range realm {
			if it < ' ' || it > '~' || it == '"' || it == '\\' {
				return optionError("WithRealm has %q, which is not printable ASCII, or has a quotation mark or a backslash", realm)
			}
		}
		by.realm = realm
		if err := checkTexts("WithRealm", realm); err != nil {
			return err
		}
		return by.given.add("WithRealm", leaveOneOut)
	}
}

// WithClaims reads the claims of each token into a new T, as Token.Claims does, for FromContext. If that returns an error, such as that of
// its method Validate, the token is refused.
func WithClaims[T any]() MiddlewareOption {
	return func(by *guard) error {
		if err := readClaims([]byte("{}"), new(T)); errors.Is(err, ErrOption) {
			return err
		}
		by.reads = append(by.reads, func(ctx context.Context, token *Token) (context.Context, error) {
			claims := new(T)
			if err := token.Claims(claims); err != nil {
				return nil, err
			}
			return context.WithValue(ctx, claimsKey[T]{}, claims), nil
		})
		return nil
	}
}

// WithAccess asks this function whether an accepted token allows the request, whose context has the claims. If it returns false, the answer
// is 403. Of several functions each is asked.
func WithAccess(allows func(*http.Request, *Token) bool) MiddlewareOption {
	return func(by *guard) error {
		if allows == nil {
			return optionError("WithAccess has no function")
		}
		by.access = append(by.access, allows)
		return nil
	}
}

// WithLog calls this function with each request that is not let through, and why, before it is answered. The answer does not say why.
func WithLog(log func(*http.Request, error)) MiddlewareOption {
	return func(by *guard) error {
		if log == nil {
			return optionError("WithLog has no function")
		}
		by.log = log
		return by.given.add("WithLog", leaveOneOut)
	}
}

type (
	tokenKey         struct{}
	claimsKey[T any] struct{}
)

// TokenFromContext returns the token of a request that Middleware let through.
func TokenFromContext(ctx context.Context) (*Token, bool) {
	token, is := ctx.Value(tokenKey{}).(*Token)
	return token, is
}

// FromContext returns the claims of a request that Middleware let through, which WithClaims of the same T read.
func FromContext[T any](ctx context.Context) (*T, bool) {
	claims, is := ctx.Value(claimsKey[T]{}).(*T)
	return claims, is
}

// Middleware returns a function that has a handler called with requests alone whose token the verifier accepts. The token is that of the
// header Authorization (RFC 6750 section 2.1), or of WithTokenFrom. Other requests are answered as RFC 6750 section 3 says, and learn
// nothing else of why:
//
//   - 401 if there is no token, or it is refused;
//   - 403 if WithAccess does not allow it;
//   - 400 if the request has several headers Authorization;
//   - 503 if the key set can't be fetched (ErrFetch);
//   - 500 if the verification did not finish, or the key set serves for none of the verifier's algorithms.
func Middleware(verifier *Verifier, opts ...MiddlewareOption) (func(http.Handler) http.Handler, error) {
	if verifier == nil || verifier.made == nil {
		return nil, optionError("NewVerifier did not make this Verifier")
	}
	by := &guard{verifier: verifier, token: bearerToken, realm: "api", log: func(*http.Request, error) {}, given: onlyOnce{}}
	if err := apply(by, opts); err != nil {
		return nil, err
	}
	return func(next http.Handler) http.Handler {
		return http.HandlerFunc(func(to http.ResponseWriter, request *http.Request) {
			allowed, err := by.allow(request)
			if err != nil {
				by.log(request, err)
				by.answer(to, err)
				return
			}
			next.ServeHTTP(to, allowed)
		})
	}, nil
}

// bearerToken returns the token of the header Authorization.
func bearerToken(request *http.Request) (string, error) {
	values := request.Header.Values("Authorization")
	if len(values) > 1 {
		return "", ErrRequest
	}
	if len(values) == 0 {
		return "", fmt.Errorf("%w: there is no header Authorization", ErrNoToken)
	}
	scheme, token, _ := strings.Cut(values[0], " ")
	if !strings.EqualFold(scheme, "Bearer") {
		return "", fmt.Errorf("%w: the header Authorization does not begin with %q", ErrNoToken, "Bearer ")
	}
	return strings.TrimLeft(token, " "), nil
}

// allow returns the request with what is known of its token, or why it is not let through.
func (g *guard) allow(request *http.Request) (*http.Request, error) {
	text, err := g.token(request)
	if err != nil {
		return nil, err
	}
	token, err := g.verifier.Parse(text)
	if err != nil {
		return nil, err
	}
	ctx := context.WithValue(request.Context(), tokenKey{}, token)
	for _, read := range g.reads {
		if ctx, err = read(ctx, token); err != nil {
			return nil, err
		}
	}
	request = request.WithContext(ctx)
	for _, allows := range g.access {
		if !allows(request, token) {
			return nil, ErrDenied
		}
	}
	return request, nil
}

// answer refuses a request.
func (g *guard) answer(to http.ResponseWriter, err error) {
	status, code := statusOf(err)
	if status < http.StatusInternalServerError {
		challenge := fmt.Sprintf("Bearer realm=%q", g.realm)
		if code != "" {
			challenge += fmt.Sprintf(", error=%q", code)
		}
		to.Header().Set("WWW-Authenticate", challenge)
	}
	http.Error(to, http.StatusText(status), status)
}

// statusOf returns the status of an answer, and the error of RFC 6750 section 3.1.
func statusOf(err error) (int, string) {
	var refused *Error
	switch {
	case errors.Is(err, ErrFetch):
		return http.StatusServiceUnavailable, ""
	case errors.Is(err, ErrNoToken):
		return http.StatusUnauthorized, ""
	case errors.Is(err, ErrRequest):
		return http.StatusBadRequest, "invalid_request"
	case errors.Is(err, ErrDenied):
		return http.StatusForbidden, "insufficient_scope"
	case errors.Is(err, ErrOutOfMemory), errors.Is(err, ErrOption):
		return http.StatusInternalServerError, ""
	case errors.Is(err, ErrKey) && !(errors.As(err, &refused) && refused.Test != ""):
		return http.StatusInternalServerError, ""
	}
	return http.StatusUnauthorized, "invalid_token"
}
