//go:build cgo && linux && amd64

package jwt

import (
	"bytes"
	"context"
	"errors"
	"fmt"
	"io"
	"net/http"
	"net/url"
	"sync"
	"sync/atomic"
	"time"
)

// ErrFetch is a set of keys that can't be fetched. It says nothing about a token.
var ErrFetch = errors.New("jwt: the set of keys can't be fetched")

// largestSet is how many bytes a set that is fetched may have.
const largestSet = 1 << 20

// mostWaiting is how many calls of Parse may wait for a fetch at the same time.
const mostWaiting = 1000

func fetchError(why string, arguments ...any) error {
	return fmt.Errorf("%w: %s", ErrFetch, fmt.Sprintf(why, arguments...))
}

// failedFetch returns the error of a fetch that ended with another one, such as context.DeadlineExceeded.
func failedFetch(cause error) error {
	return &joinedError{ErrFetch, cause, ErrFetch.Error() + ": " + cause.Error()}
}

var errNotFetched = fetchError("none was fetched yet")

// undecided returns the refusal of a token whose key may be in a set that can't be fetched.
func undecided(refusal, fetch error) error {
	return &joinedError{ErrFetch, refusal, refusal.Error() + "; " + fetch.Error()}
}

// Fetch returns the text of a JSON Web Key Set. It has to end soon after the context does. If it panics, the fetch has failed.
type Fetch func(context.Context) ([]byte, error)

// KeySet is a JSON Web Key Set that is fetched, and fetched again as its keys rotate: in the background, and for a token whose kid the
// set does not have. If a fetch fails, or gives no usable set, the last one that was usable stays. Any number of goroutines may use it, and
// at most 1000 calls of Parse wait for a fetch at the same time: the next one returns ErrFetch at once, joined to its refusal.
type KeySet struct {
	fetch                     Fetch
	refresh, refetch, timeout time.Duration
	isLazy                    bool
	skipped                   func(SkippedKey)
	given                     onlyOnce
	ctx                       context.Context
	current                   atomic.Pointer[fetched]

	mutex    sync.Mutex
	underWay *flight   // the fetch that is under way, or nil
	from     time.Time // before this time no set is fetched for an unknown kid
	failure  error     // of the last fetch
	at       time.Time // of the last fetch that gave a usable set
	waiting  int       // how many calls of Parse wait for a fetch
}

// fetched is a set that is usable, or the empty one before the first (WithLazyStart).
type fetched struct {
	keys    *keys
	text    []byte
	isEmpty bool
	mutex   sync.Mutex // of kept
	kept    []keptHandles
}

// mostKept is for how many different options the handles of a set are kept.
const mostKept = 16

// keptHandles has the handles of a set for options.
type keptHandles struct {
	options []byte
	made    *handles
}

// handles returns the handles of the set for the options of verifiers, and makes them if this is the first call with the options.
func (f *fetched) handles(options []byte) *handles {
	f.mutex.Lock()
	defer f.mutex.Unlock()
	for _, it := range f.kept {
		if bytes.Equal(it.options, options) {
			return it.made
		}
	}
	made := newHandles(f, f.keys, options, forFetchedSet)
	if errors.Is(made.err, ErrOutOfMemory) {
		return made
	}
	if len(f.kept) == mostKept {
		f.kept = f.kept[1:]
	}
	f.kept = append(f.kept, keptHandles{options, made})
	return made
}

// prepare makes the handles that the verifiers of the set before will need, so that none of their calls waits for them.
func (f *fetched) prepare(before *fetched) {
	before.mutex.Lock()
	kept := append([]keptHandles(nil), before.kept...)
	before.mutex.Unlock()
	for _, it := range kept {
		f.handles(it.options)
	}
}

// flight is a fetch, whose end closes the channel.
type flight struct {
	begun time.Time
	ended chan struct{}
}

// KeySetOption changes how a KeySet fetches. Each may be given once.
type KeySetOption func(*KeySet) error

// timing returns an option that sets a duration.
func timing(option string, duration time.Duration, set func(*KeySet)) KeySetOption {
	return func(to *KeySet) error {
		if duration <= 0 {
			return optionError("%s: %v is not more than 0", option, duration)
		}
		set(to)
		return to.given.add(option, leaveOneOut)
	}
}

// WithRefresh has the set fetched so often in the background: every 5 minutes without this option. After a fetch that failed, the next
// one is as soon as WithRefetch allows.
func WithRefresh(every time.Duration) KeySetOption {
	return timing("WithRefresh", every, func(set *KeySet) { set.refresh = every })
}

// WithRefetch has this as the least time from a fetch for an unknown kid to the next one: 10 seconds without this option.
func WithRefetch(least time.Duration) KeySetOption {
	return timing("WithRefetch", least, func(set *KeySet) { set.refetch = least })
}

// WithTimeout has this as the longest time that a fetch takes, and that Parse waits for it: 10 seconds without this option.
func WithTimeout(longest time.Duration) KeySetOption {
	return timing("WithTimeout", longest, func(set *KeySet) { set.timeout = longest })
}

// WithLazyStart has NewKeySet return at once, so that a service starts while the key server is down. Until a set is fetched, Parse returns
// ErrFetch for every token. A token with a kid waits for the first fetch, and causes another as WithRefetch allows.
func WithLazyStart() KeySetOption {
	return func(set *KeySet) error {
		set.isLazy = true
		return nil
	}
}

// WithSkippedKeys calls this function with each item of a fetched set that is skipped, for a log, before the set is used. It is called in the
// goroutine that fetches, and not again for a set with the same text. If it panics, the fetch has failed.
func WithSkippedKeys(log func(SkippedKey)) KeySetOption {
	return func(set *KeySet) error {
		if log == nil {
			return optionError("WithSkippedKeys has no function")
		}
		set.skipped = log
		return set.given.add("WithSkippedKeys", leaveOneOut)
	}
}

// NewKeySet returns the set that fetch returns, once the first fetch gave a usable one, or at once with WithLazyStart. It is fetched again
// until the context ends, and then stays as it is. A set is usable if ParseJWKSet reads it: items that are not usable keys are skipped, and
// WithSkippedKeys reports them. An error is ErrFetch, ErrKey if the text is not a usable set, or ErrOption.
func NewKeySet(ctx context.Context, fetch Fetch, opts ...KeySetOption) (*KeySet, error) {
	if ctx == nil {
		return nil, optionError("ctx is nil")
	}
	if fetch == nil {
		return nil, optionError("fetch is nil")
	}
	set := &KeySet{fetch: fetch, ctx: ctx, refresh: 5 * time.Minute, refetch: 10 * time.Second, timeout: 10 * time.Second, given: onlyOnce{}}
	if err := apply(set, opts); err != nil {
		return nil, err
	}
	if set.isLazy {
		empty, err := readKeys(fromSet, []byte(`{"keys":[]}`))
		if err != nil {
			return nil, err
		}
		set.current.Store(&fetched{keys: empty, isEmpty: true})
		set.failure = errNotFetched
		set.start()
	} else if set.wait(set.start()); set.current.Load() == nil {
		return nil, set.firstFailure()
	}
	go set.keep()
	return set, nil
}

// FetchKeySet returns the set at an http or https URI, like NewKeySet. The client is http.DefaultClient if it is nil. Of an answer at
// most 1 MiB is read, its status has to be 200, and a redirect may lead to the same scheme or to https alone.
func FetchKeySet(ctx context.Context, uri string, client *http.Client, opts ...KeySetOption) (*KeySet, error) {
	at, err := url.Parse(uri)
	if err != nil || at.Scheme != "http" && at.Scheme != "https" || at.Hostname() == "" {
		return nil, optionError("uri is not of the scheme http or https, with a host")
	}
	return NewKeySet(ctx, fetchBy(ownClient(client), uri), opts...)
}

// ownClient returns a client that follows no redirect to a scheme that is less safe.
func ownClient(client *http.Client) *http.Client {
	if client == nil {
		client = http.DefaultClient
	}
	own := *client
	follows := own.CheckRedirect
	own.CheckRedirect = func(next *http.Request, before []*http.Request) error {
		last := before[len(before)-1]
		if next.URL.Scheme != "https" && next.URL.Scheme != last.URL.Scheme {
			return fmt.Errorf("a redirect from %s to %s", last.URL.Scheme, next.URL.Scheme)
		}
		if follows != nil {
			return follows(next, before)
		}
		if len(before) >= 10 {
			return errors.New("more than 10 redirects")
		}
		return nil
	}
	return &own
}

func fetchBy(client *http.Client, uri string) Fetch {
	return func(ctx context.Context) ([]byte, error) {
		request, err := http.NewRequestWithContext(ctx, http.MethodGet, uri, nil)
		if err != nil {
			return nil, err
		}
		request.Header.Set("Accept", "application/json, application/jwk-set+json")
		response, err := client.Do(request)
		if err != nil {
			return nil, err
		}
		defer response.Body.Close()
		if response.StatusCode != http.StatusOK {
			return nil, fmt.Errorf("%s: the status is %d", request.URL.Redacted(), response.StatusCode)
		}
		return io.ReadAll(io.LimitReader(response.Body, largestSet+1))
	}
}

// Key returns the set as a key for NewVerifier. Its verifiers follow the set as it changes. Each prepares at most 1 MiB of its keys, such as 64
// on P-256.
func (s *KeySet) Key() Key {
	if s == nil || s.current.Load() == nil {
		return Key{}
	}
	return Key{keys: func() *keys { return s.current.Load().keys }, set: func() *KeySet { return s }}
}

// Fetched returns when the set that is used was fetched, or the zero time if there is none.
func (s *KeySet) Fetched() time.Time {
	if s == nil {
		return time.Time{}
	}
	s.mutex.Lock()
	defer s.mutex.Unlock()
	return s.at
}

// Err returns the error of the last fetch, or nil if it gave a usable set.
func (s *KeySet) Err() error {
	if s == nil || s.fetch == nil {
		return optionError("NewKeySet did not make this KeySet")
	}
	s.mutex.Lock()
	defer s.mutex.Unlock()
	return s.failure
}

// Format does not show the keys, whatever the verb.
func (*KeySet) Format(state fmt.State, _ rune) {
	_, _ = io.WriteString(state, "jwt.KeySet([redacted])")
}

func (s *KeySet) firstFailure() error {
	if err := s.Err(); err != nil {
		return err
	}
	return fetchError("it took longer than %v", s.timeout)
}

// keep fetches the set in the background.
func (s *KeySet) keep() {
	for {
		pause := s.refresh
		if s.Err() != nil && s.refetch < pause {
			pause = s.refetch
		}
		timer := time.NewTimer(pause)
		select {
		case <-s.ctx.Done():
			timer.Stop()
			return
		case <-timer.C:
			s.wait(s.start())
		}
	}
}

// start returns the fetch that is under way, or starts one.
func (s *KeySet) start() *flight {
	s.mutex.Lock()
	defer s.mutex.Unlock()
	return s.startLocked()
}

func (s *KeySet) startLocked() *flight {
	if s.underWay == nil {
		begun := &flight{time.Now(), make(chan struct{})}
		s.underWay = begun
		go s.run(begun)
	}
	return s.underWay
}

// run fetches the set, and takes it over if it is usable. A panic ends here: no caller could recover it in this goroutine.
func (s *KeySet) run(begun *flight) {
	ctx, cancel := context.WithTimeout(s.ctx, s.timeout)
	defer cancel()
	var found *fetched
	err := fetchError("the function did not return")
	defer func() {
		if why := recover(); why != nil {
			err = fetchError("the function panicked: %v", why)
		}
		s.end(begun, found, err)
	}()
	found, err = s.usable(ctx)
}

// end notes the result of a fetch.
func (s *KeySet) end(begun *flight, found *fetched, err error) {
	s.mutex.Lock()
	defer s.mutex.Unlock()
	if err == nil {
		s.current.Store(found)
		s.at = time.Now()
	}
	s.failure = err
	s.underWay = nil
	close(begun.ended)
}

// usable fetches a set, and returns it if it is usable. If the text is the same as before, usable returns the set before, with its handles.
func (s *KeySet) usable(ctx context.Context) (*fetched, error) {
	text, err := s.fetch(ctx)
	if err != nil {
		return nil, failedFetch(err)
	}
	if err := ctx.Err(); err != nil {
		return nil, failedFetch(err)
	}
	if len(text) > largestSet {
		return nil, fetchError("it has more than %d bytes", largestSet)
	}
	before := s.current.Load()
	if before != nil && !before.isEmpty && bytes.Equal(text, before.text) {
		return before, nil
	}
	found := &fetched{text: append([]byte(nil), text...)}
	if found.keys, err = s.read(text); err != nil {
		return nil, err
	}
	if before != nil {
		found.prepare(before)
	}
	return found, nil
}

// read has the library read a set, and reports the items that are skipped.
func (s *KeySet) read(text []byte) (*keys, error) {
	read, err := readKeys(fromSet, text)
	if err != nil {
		return nil, err
	}
	if s.skipped != nil {
		for _, it := range read.skipped(read.items) {
			s.skipped(it)
		}
	}
	return read, read.usable()
}

// wait waits for the end of a fetch, but no longer than until the timeout after its begin. It returns whether the fetch has ended.
func (s *KeySet) wait(begun *flight) bool {
	timer := time.NewTimer(time.Until(begun.begun.Add(s.timeout)))
	defer timer.Stop()
	select {
	case <-begun.ended:
		return true
	case <-timer.C:
		return false
	}
}

// after returns the set that follows one without the key of a token, if there is another, or if it is time to fetch one. If none follows
// because the last fetch failed, or because it can't be waited for, it returns the error of that.
func (s *KeySet) after(seen *fetched) (*fetched, error) {
	begun, failure := s.ask(seen)
	if begun == nil {
		return s.current.Load(), failure
	}
	return s.settle(seen, s.wait(begun))
}

// ask returns the fetch that may give another set, or nil if there is one, if it is not time to fetch, or if too many wait.
func (s *KeySet) ask(seen *fetched) (*flight, error) {
	s.mutex.Lock()
	defer s.mutex.Unlock()
	switch {
	case s.current.Load() != seen:
		return nil, nil
	case s.underWay == nil && time.Now().Before(s.from):
		return nil, s.failure
	case s.waiting >= mostWaiting:
		return nil, fetchError("%d tokens wait for it already", mostWaiting)
	}
	s.waiting++
	return s.startLocked(), nil
}

// settle returns the set after a fetch that was waited for.
func (s *KeySet) settle(seen *fetched, hasEnded bool) (*fetched, error) {
	s.mutex.Lock()
	defer s.mutex.Unlock()
	s.waiting--
	s.from = time.Now().Add(s.refetch)
	if last := s.current.Load(); last != seen {
		return last, nil
	}
	if !hasEnded {
		return seen, fetchError("it took longer than %v", s.timeout)
	}
	return seen, s.failure
}
