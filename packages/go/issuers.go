//go:build cgo && linux && amd64

package jwt

import (
	"encoding/json"
	"errors"
)

// ByIssuer returns one verifier of several, for issuers that have keys of their own. A token is accepted if one of them accepts it. Each needs
// WithIssuer, and no two of them may have the same issuer: then a key of one issuer signs no token of another (RFC 8725 section 3.8), and a
// token without iss is refused. A KeySet of one of them is fetched again as before, for tokens of its issuers alone.
//
// The error is ErrOption if a verifier has no issuer, or one of another verifier, or if WithTime is given to some of them. Given to all of them, the
// clock of the first counts.
func ByIssuer(verifiers ...*Verifier) (*Verifier, error) {
	made := &verifying{asked: &options{}, issuers: map[string]*verifying{}}
	either := []alternative{}
	for i, it := range verifiers {
		if it == nil || it.made == nil || it.made.issuers != nil {
			return nil, optionError("ByIssuer: NewVerifier did not make the verifier at place %d", i)
		}
		if err := made.addIssuers(it.made, i); err != nil {
			return nil, err
		}
		either = append(either, alternative{of: it.made})
	}
	if len(either) == 0 {
		return nil, optionError("ByIssuer has no verifier")
	}
	made.current.Store(joined(either))
	return &Verifier{made}, nil
}

// addIssuers adds the issuers of a verifier, which is at this place of the list.
func (v *verifying) addIssuers(of *verifying, place int) error {
	if len(of.asked.Issuer) == 0 {
		return optionError("ByIssuer: the verifier at place %d has no issuer: give it WithIssuer", place)
	}
	for _, it := range of.asked.Issuer {
		if other := v.issuers[it]; other != nil && other != of {
			return optionError("ByIssuer: the issuer %s is that of two verifiers: %s", quoted(it), leaveOneOut)
		}
		v.issuers[it] = of
	}
	if place == 0 {
		v.asked.now = of.asked.now
	} else if (of.asked.now == nil) != (v.asked.now == nil) {
		return optionError("ByIssuer: WithTime is given to some verifiers: give it to all of them, or to none")
	}
	return nil
}

// alternative is a verifier of ByIssuer, and the last handles of it.
type alternative struct {
	of *verifying
	by *handles
}

// areLatest returns whether the handles are those of the last sets of all verifiers.
func (h *handles) areLatest() bool {
	for _, it := range h.either {
		if it.of.latest() != it.by {
			return false
		}
	}
	return true
}

// joined returns handles of all verifiers that have some. Without any the error is that of the first one.
func joined(either []alternative) *handles {
	made := &handles{}
	for _, it := range either {
		it.by = it.of.latest()
		made.either = append(made.either, it)
		switch {
		case it.by.err != nil || made.err != nil:
			continue
		case made.first == nil:
			made.first, made.err = it.by.take()
		default:
			made.first, made.err = made.first.orOneOf(it.by)
		}
		made.joined = append(made.joined, it.of.asked)
	}
	if made.first == nil && made.err == nil {
		made.err = made.either[0].by.err
	}
	return made
}

// orOneOf returns a handle that accepts what this one accepts, and else what the others do.
func (it *handle) orOneOf(others *handles) (*handle, error) {
	other, err := others.take()
	if err != nil {
		return nil, err
	}
	defer others.idle.Put(other)
	return it.or(other)
}

// verifyByIssuer has a token whose key a set may lack verified by the verifier of its iss alone, whose set may be fetched.
func (v *verifying) verifyByIssuer(by *handles, token string, refusal error) (*Token, error) {
	var refused *Error
	if errors.As(refusal, &refused) && !refused.hasKid && len(by.joined) == len(by.either) {
		return nil, refusal
	}
	var named struct {
		Issuers ClaimStrings `json:"iss"`
	}
	claims, _ := unverified(token, payloadPart)
	_ = json.Unmarshal(claims, &named) // what is not read names none
	for _, it := range named.Issuers {
		if of := v.issuers[it]; of != nil && of.set != nil {
			return of.verify(token)
		}
	}
	return nil, refusal
}
