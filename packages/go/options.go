//go:build cgo && linux && amd64

package jwt

import (
	"encoding/json"
	"math"
	"time"
	"unicode/utf8"
)

// options has the conditions on a token, by the names of jwtproved.h. Required has names among exp, nbf, aud, iss and sub, and Further others.
type options struct {
	Strict      bool     `json:"strict"`
	Algorithms  []string `json:"algorithms,omitempty"`
	Required    []string `json:"required_spec_claims"`
	Further     []string `json:"required,omitempty"`
	Texts       []string `json:"texts,omitempty"`
	IssuedAt    bool     `json:"issued_at,omitempty"`
	OneAudience bool     `json:"one_audience,omitempty"`
	Leeway      uint64   `json:"leeway"`
	Remaining   *uint64  `json:"reject_tokens_expiring_in_less_than,omitempty"`
	ValidateExp *bool    `json:"validate_exp,omitempty"`
	ValidateNbf *bool    `json:"validate_nbf,omitempty"`
	ValidateAud *bool    `json:"validate_aud,omitempty"`
	Audience    []string `json:"aud,omitempty"`
	Issuer      []string `json:"iss,omitempty"`
	Subject     *string  `json:"sub,omitempty"`
	Crit        []string `json:"understood_crit,omitempty"`
	text        []byte   // these as JSON
	noExpiry    bool
	now         func() time.Time // nil for that of the system
	given       onlyOnce
}

// Option is a condition on a token. Only WithRequired and WithStrings may be given several times with other values: any other second option is
// ErrOption, since it would replace or widen the first.
type Option func(*options) error

// apply calls options, none of which may be nil.
func apply[T any, O ~func(T) error](to T, opts []O) error {
	for i, it := range opts {
		if it == nil {
			return optionError("the option at place %d is nil", i)
		}
		if err := it(to); err != nil {
			return err
		}
	}
	return nil
}

// onlyOnce has the names of the options so far.
type onlyOnce map[string]bool

// The advice in the error of a second option.
const (
	inOneCall   = "give all values in one call"
	leaveOneOut = "leave one of the two out"
)

// add returns an error, which says what to write, if an option is given a second time.
func (o onlyOnce) add(option, instead string) error {
	if o[option] {
		return optionError("%s is given twice: %s", option, instead)
	}
	o[option] = true
	return nil
}

// checkTexts returns an error if an argument has no text, an empty one, or one that is not UTF-8. An empty list and an empty text come
// from a setting that is not there, and would check nothing.
func checkTexts(argument string, texts ...string) error {
	if len(texts) == 0 {
		return optionError("%s has no text", argument)
	}
	for _, it := range texts {
		if it == "" {
			return optionError("%s has an empty text", argument)
		}
		if !utf8.ValidString(it) {
			return optionError("%s has %q, which is not UTF-8", argument, it)
		}
	}
	return nil
}

// setting returns an option that may be given several times.
func setting(set func(*options)) Option {
	return func(asked *options) error {
		set(asked)
		return nil
	}
}

// listing returns an option that sets a list of strings.
func listing(option string, texts []string, set func(*options)) Option {
	return func(asked *options) error {
		set(asked)
		if err := checkTexts(option, texts...); err != nil {
			return err
		}
		return asked.given.add(option, inOneCall)
	}
}

// lasting returns an option that sets a number of whole seconds.
func lasting(option string, duration, least time.Duration, set func(*options, uint64)) Option {
	return func(asked *options) error {
		if duration < least || duration%time.Second != 0 {
			return optionError("%s: %v is not a number of whole seconds from %d on", option, duration, least/time.Second)
		}
		set(asked, uint64(duration/time.Second))
		return asked.given.add(option, leaveOneOut)
	}
}

// WithAudience requires one of these audiences, one or more, none of them empty. Without it, a token that names an audience is refused.
func WithAudience(audiences ...string) Option {
	return listing("WithAudience", audiences, func(asked *options) { asked.Audience = audiences })
}

// WithAnyAudience accepts a token whatever audience it names, or none. WithAudience contradicts it.
func WithAnyAudience() Option { return setting(func(asked *options) { asked.ValidateAud = new(bool) }) }

// WithOneAudience refuses a token whose aud is a list, also of one audience, with ErrMalformedClaim.
func WithOneAudience() Option { return setting(func(asked *options) { asked.OneAudience = true }) }

// WithIssuer requires one of these issuers, one or more, none of them empty. The iss has to be a string, and not a list (RFC 7519 section 4.1.1).
func WithIssuer(issuers ...string) Option {
	return listing("WithIssuer", issuers, func(asked *options) {
		asked.Issuer = issuers
		asked.Texts = append(asked.Texts, "iss")
	})
}

// WithSubject requires this subject, which may not be empty.
func WithSubject(subject string) Option {
	return func(asked *options) error {
		asked.Subject = &subject
		if err := checkTexts("WithSubject", subject); err != nil {
			return err
		}
		return asked.given.add("WithSubject", leaveOneOut)
	}
}

// WithRequired requires these claims, one or more of any names, with another value than null. exp is always required unless WithoutExpiry is
// given; do not combine WithoutExpiry with WithRequired("exp").
func WithRequired(claims ...string) Option {
	return func(asked *options) error {
		for _, it := range claims {
			if contains(registeredClaims, it) {
				asked.Required = append(asked.Required, it)
			} else {
				asked.Further = append(asked.Further, it)
			}
		}
		return checkTexts("WithRequired", claims...)
	}
}

func contains(list []string, text string) bool {
	for _, it := range list {
		if it == text {
			return true
		}
	}
	return false
}

// WithStrings refuses a token in which one of these claims, one or more, is there and is not a string, such as sub or jti, with
// ErrMalformedClaim.
func WithStrings(claims ...string) Option {
	return func(asked *options) error {
		asked.Texts = append(asked.Texts, claims...)
		return checkTexts("WithStrings", claims...)
	}
}

// WithoutExpiry accepts a token without exp too. One that has exp is checked.
func WithoutExpiry() Option { return setting(func(asked *options) { asked.noExpiry = true }) }

// WithExpired accepts a token whose exp has passed too, for example to tell whose it was. WithRemaining contradicts it.
func WithExpired() Option { return setting(func(asked *options) { asked.ValidateExp = new(bool) }) }

// WithEarly accepts a token before its nbf too.
func WithEarly() Option { return setting(func(asked *options) { asked.ValidateNbf = new(bool) }) }

// WithRemaining refuses a token that expires in less than this duration, a number of whole seconds, at least 1.
func WithRemaining(least time.Duration) Option {
	return lasting("WithRemaining", least, time.Second, func(asked *options, seconds uint64) { asked.Remaining = &seconds })
}

// WithLeeway allows clocks to differ by this many whole seconds. There is none without it.
func WithLeeway(leeway time.Duration) Option {
	return lasting("WithLeeway", leeway, 0, func(asked *options, seconds uint64) { asked.Leeway = seconds })
}

// WithIssuedAt refuses a token before its iat, with ErrNotYetValid, whose Error.Claim is iat. A token may have no iat; one that is not a
// number is ErrMalformedClaim.
func WithIssuedAt() Option { return setting(func(asked *options) { asked.IssuedAt = true }) }

// WithUnderstoodCrit accepts a token whose crit (RFC 7515 section 4.1.11) lists some of these header parameters, one or more. The caller has to
// process them: Token.Header has them. Without it, a token with a crit is refused.
func WithUnderstoodCrit(names ...string) Option {
	return listing("WithUnderstoodCrit", names, func(asked *options) { asked.Crit = names })
}

// WithTime has the clock read by this function.
func WithTime(now func() time.Time) Option {
	return func(asked *options) error {
		if now == nil {
			return optionError("WithTime has no function")
		}
		asked.now = now
		return asked.given.add("WithTime", leaveOneOut)
	}
}

// systemClock is the time of the clock of the system.
const systemClock = math.MaxUint64

// moment returns the time of a clock as the library takes it.
func moment(now func() time.Time) (uint64, error) {
	if now == nil {
		return systemClock, nil
	}
	since := now().Unix()
	if since < 0 {
		return 0, optionError("WithTime: the clock is before 1970")
	}
	return uint64(since), nil
}

// moment returns the time for a call of the library that does not read the clock of the system.
func (o *options) moment() (uint64, error) {
	if o.now == nil {
		return moment(time.Now)
	}
	return moment(o.now)
}

// contradiction returns an error if two options ask for opposite things.
func (o *options) contradiction() error {
	switch {
	case o.noExpiry && contains(o.Required, "exp"):
		return optionError("WithoutExpiry and WithRequired(%q) contradict each other", "exp")
	case o.ValidateAud != nil && o.Audience != nil:
		return optionError("WithAnyAudience and WithAudience contradict each other")
	case o.ValidateExp != nil && o.Remaining != nil:
		return optionError("WithExpired and WithRemaining contradict each other")
	}
	return nil
}

// listed returns the conditions of options and of a list of algorithms, which may not be empty.
func listed(algorithms []string, opts []Option) (*options, error) {
	if err := checkTexts("algorithms", algorithms...); err != nil {
		return nil, err
	}
	return conditions(algorithms, opts)
}

// conditions returns what algorithms and options ask for.
func conditions(algorithms []string, opts []Option) (*options, error) {
	asked := &options{Strict: true, Algorithms: algorithms, Required: []string{}, given: onlyOnce{}}
	if err := apply(asked, opts); err != nil {
		return nil, err
	}
	if err := asked.contradiction(); err != nil {
		return nil, err
	}
	if !asked.noExpiry {
		asked.Required = append(asked.Required, "exp")
	}
	var err error
	if asked.text, err = json.Marshal(asked); err != nil {
		return nil, optionError("%v", err)
	}
	return asked, nil
}
