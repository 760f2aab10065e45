//go:build cgo && linux && amd64

package jwt

import (
	"errors"
	"fmt"
	"io"
	"sync"
	"sync/atomic"
)

// Verifier verifies tokens with one key and the same conditions, or with those of ByIssuer.
type Verifier struct{ made *verifying }

type verifying struct {
	asked    *options
	prepared preparedSize
	set      *KeySet                 // nil for a key that stays
	issuers  map[string]*verifying   // of ByIssuer
	current  atomic.Pointer[handles] // nil before the first call
}

// handles are those of the same keys and options, of which each call has one for itself: an idle one, or a new one of the first. The
// garbage collector lets idle ones go, and a finalizer frees them.
type handles struct {
	set    *fetched      // that the keys are of, or nil for other keys
	either []alternative // of ByIssuer
	joined []*options    // of ByIssuer: those of each verifier that has handles
	err    error         // why there are none
	mutex  sync.Mutex    // of first
	first  *handle
	idle   sync.Pool
}

// newHandles returns handles of keys, or of the set that the keys are of.
func newHandles(set *fetched, by *keys, options []byte, prepared preparedSize) *handles {
	made := &handles{set: set}
	made.first, made.err = newHandle(by, options, prepared)
	if set != nil && set.isEmpty && isStatus(made.err, noUsableKey) {
		made.err = &joinedError{ErrFetch, made.err, errNotFetched.Error()}
	}
	return made
}

func (h *handles) take() (*handle, error) {
	if it, is := h.idle.Get().(*handle); is {
		return it, nil
	}
	if h.err != nil {
		return nil, h.err
	}
	h.mutex.Lock()
	defer h.mutex.Unlock()
	return h.first.share()
}

func (h *handles) decode(token string, now uint64, asked *options) (*Token, error) {
	one, err := h.take()
	if err != nil {
		return nil, err
	}
	verified, status := one.decode(token, now)
	said := one.said
	h.idle.Put(one)
	if verified != nil {
		return verified, nil
	}
	if h.joined != nil {
		asked = h.joined[said.verifier]
	}
	return nil, asked.tokenRefusal(status, said, token)
}

func (h *handles) attach(message, signature []byte) (string, error) {
	one, err := h.take()
	if err != nil {
		return "", err
	}
	token, err := one.attach(message, signature)
	h.idle.Put(one)
	return token, err
}

// Format shows neither the key nor the options, whatever the verb.
func (Verifier) Format(state fmt.State, _ rune) {
	_, _ = io.WriteString(state, "jwt.Verifier([redacted])")
}

// NewVerifier returns a verifier with a key, for these algorithms. They may be of several families, such as RS256, ES256 and EdDSA: in a set the
// header's kid selects the key, and the key decides which of the algorithms apply. A key with an alg verifies with that algorithm alone, if it
// is listed. If no key can verify with a listed algorithm, the error is ErrKey, whose text lists the skipped keys and why.
func NewVerifier(key Key, algorithms []string, opts ...Option) (*Verifier, error) {
	return newVerifier(key, algorithms, opts, forManyTokens)
}

func newVerifier(key Key, algorithms []string, opts []Option, prepared preparedSize) (*Verifier, error) {
	asked, err := listed(algorithms, opts)
	if err != nil {
		return nil, err
	}
	if key.keys == nil {
		return nil, keyError("there is none")
	}
	made := &verifying{asked: asked, prepared: prepared}
	if key.set != nil {
		made.set = key.set()
	} else {
		made.current.Store(newHandles(nil, key.keys(), asked.text, prepared))
	}
	switch it := made.latest(); {
	case errors.Is(it.err, ErrOption):
		return nil, unknownAlgorithm(algorithms)
	case errors.Is(it.err, ErrOutOfMemory):
		return nil, it.err
	case it.err != nil && !errors.Is(it.err, ErrFetch):
		return nil, fmt.Errorf("%w: %q", it.err, algorithms)
	}
	return &Verifier{made}, nil
}

// Parse verifies a token. The error is nil, or of one of the kinds of this package. A token of more than 1 MiB is ErrMalformed. If the set
// of a KeySet does not have the token's key, and could not be fetched, the error is of two kinds, ErrFetch and that of the refusal.
func (v *Verifier) Parse(token string) (*Token, error) {
	if v == nil || v.made == nil {
		return nil, optionError("NewVerifier did not make this Verifier")
	}
	return v.made.verify(token)
}

// verify returns the claims of a token. If the set of a KeySet has no key of its kid, a later set decides.
func (v *verifying) verify(token string) (*Token, error) {
	by := v.latest()
	verified, err := v.verifyBy(by, token)
	switch {
	case err == nil:
		return verified, nil
	case v.issuers != nil:
		return v.verifyByIssuer(by, token, err)
	case v.set == nil || !mayHaveLaterKey(token, err):
		return nil, err
	}
	later, failure := v.set.after(by.set)
	if failure != nil {
		return nil, undecided(err, failure)
	}
	if later == by.set {
		return nil, err
	}
	return v.verifyBy(v.latest(), token)
}

func (v *verifying) verifyBy(by *handles, token string) (*Token, error) {
	now, err := moment(v.asked.now)
	if err != nil {
		return nil, err
	}
	return by.decode(token, now, v.asked)
}

// mayHaveLaterKey returns whether a token names a key that the set does not have. A set without a key for the algorithms has no key of
// the token either.
func mayHaveLaterKey(token string, err error) bool {
	var refused *Error
	switch {
	case !errors.As(err, &refused):
		return false
	case refused.Status == noUsableKey:
		_, isThere := kidIn(token)
		return isThere
	}
	return refused.hasKid
}

// latest returns the handles for the last set that was fetched, for a key that stays, or for the verifiers of ByIssuer.
func (v *verifying) latest() *handles {
	it := v.current.Load()
	if v.isLatest(it) {
		return it
	}
	switch {
	case v.issuers != nil:
		it = joined(it.either)
	case v.prepared == forOneToken:
		set := v.set.current.Load()
		it = newHandles(set, set.keys, v.asked.text, v.prepared)
	default:
		it = v.set.current.Load().handles(v.asked.text)
	}
	if !errors.Is(it.err, ErrOutOfMemory) {
		v.current.Store(it)
	}
	return it
}

func (v *verifying) isLatest(it *handles) bool {
	if v.issuers != nil {
		return it.areLatest()
	}
	return v.set == nil || it != nil && it.set == v.set.current.Load()
}
