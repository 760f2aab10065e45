//go:build cgo && linux && amd64

package jwt

/*
#cgo pkg-config: jwtproved
#include <time.h>
#include <jwtproved.h>

// The token is not copied. The verifier is of a type without pointers, so that Go does not look for its own in what it points to. A
// time of UINT64_MAX is that of the clock, which C reads in less time than Go.
static enum jwt_status decode(uint8_t *verifier, _GoString_ token, uint64_t now, char *buffer, size_t size, struct jwt_verdict *said) {
	if (now == UINT64_MAX) {
		time_t clock = time(NULL);
		if (clock < 0) {
			*said = (struct jwt_verdict){0};
			return JWT_CLOCK_BEFORE_EPOCH;
		}
		now = (uint64_t)clock;
	}
	return jwt_verifier_decode((struct jwt_handle *)verifier, _GoStringPtr(token), _GoStringLen(token), now, buffer, size, said);
}
*/
import "C"

import (
	"fmt"
	"runtime"
	"sync"
	"unsafe"
)

// view is how C takes some bytes: chars if they are a text, and octets if they are a secret, a signature or a message.
type view struct {
	chars  *C.char
	octets *C.uint8_t
	len    C.size_t
}

func viewOf(of []byte) view {
	if len(of) == 0 {
		return view{}
	}
	at := unsafe.Pointer(&of[0])
	return view{(*C.char)(at), (*C.uint8_t)(at), C.size_t(len(of))}
}

// call writes its result to a buffer, and its length or the length that is needed.
type call func(buffer view, length *C.size_t) C.enum_jwt_status

// fill returns the bytes that a call writes, to a buffer of at first this size.
func fill(size int, made call) ([]byte, C.enum_jwt_status) {
	var length C.size_t
	for {
		buffer := make([]byte, size)
		status := made(viewOf(buffer), &length)
		if status != C.JWT_BUFFER_TOO_SMALL {
			return buffer[:length], status
		}
		size = int(length)
	}
}

// answer returns the bytes that a call writes, or the refusal.
func answer(size int, made call) ([]byte, error) {
	text, status := fill(size, made)
	if status == C.JWT_OK {
		return text, nil
	}
	return nil, refusal(status, 0)
}

// textOf returns the text of a status, or the name of a test or of an algorithm, or "" for an unknown number.
func textOf(of, number C.uint32_t) string {
	text, _ := fill(64, func(to view, length *C.size_t) C.enum_jwt_status {
		return C.jwt_text(of, number, to.chars, to.len, length)
	})
	return string(text)
}

func statusText(status C.enum_jwt_status) string { return textOf(C.JWT_OF_STATUS, C.uint32_t(status)) }

// source is what the bytes are that the library reads keys of.
type source = C.uint32_t

const (
	fromText   source = C.JWT_TEXT
	fromSecret source = C.JWT_SECRET
	fromSet    source = C.JWT_SET
)

// keys are what the library has read, once. Their handle may be in one call at a time.
type keys struct {
	mutex       sync.Mutex
	handle      C.struct_jwt_handle
	items, kept int
}

// readKeys has the library read keys, or returns the refusal. Items of a set may be skipped.
func readKeys(from source, bytes []byte) (*keys, error) {
	read, text := &keys{}, viewOf(bytes)
	var items, kept C.size_t
	if status := C.jwt_keys_add(&read.handle, from, text.octets, text.len, &items, &kept); status != C.JWT_OK {
		return nil, keyRefusal(status)
	}
	read.items, read.kept = int(items), int(kept)
	runtime.SetFinalizer(read, (*keys).free)
	return read, nil
}

// free may be called several times.
func (k *keys) free() { C.jwt_free(&k.handle) }

// usable returns an error if no token can be verified with the keys. Of a set only items with a kid count, since no token can name another.
func (k *keys) usable() error {
	info := &C.struct_jwt_key_info{}
	if C.jwt_keys_info(&k.handle, C.JWT_ALL, info); info.verifies == 0 {
		return k.unusable()
	}
	return nil
}

// mostReasons is how many skipped items the text of an error lists.
const mostReasons = 10

// unusable returns the error of keys that fit no algorithm, and lists why items are skipped.
func (k *keys) unusable() error {
	refused := keyRefusal(C.JWT_NO_USABLE_KEY)
	if k.items == 0 {
		refused.text += "; the set is empty"
	}
	listed := k.skipped(mostReasons)
	for _, it := range listed {
		refused.text += "; " + it.String()
	}
	if more := k.items - k.kept - len(listed); more > 0 {
		refused.text += fmt.Sprintf("; %d more are skipped", more)
	}
	return refused
}

// skipped returns the skipped items, in their order, up to this number.
func (k *keys) skipped(most int) []SkippedKey {
	k.mutex.Lock()
	defer k.mutex.Unlock()
	if count := k.items - k.kept; count < most {
		most = count
	}
	found := make([]SkippedKey, 0, most)
	info := &C.struct_jwt_key_info{}
	for place := 0; place < k.items && len(found) < most; place++ {
		if C.jwt_keys_info(&k.handle, C.size_t(place), info) == C.JWT_OK && info.status != C.JWT_OK {
			jwk, _ := k.textAt(place) // an item that is not a key has no text, and no kid
			kid, _ := stringOf(jwk, "kid")
			found = append(found, SkippedKey{place, kid, uint32(info.status), textOf(C.JWT_OF_STATUS, info.status)})
		}
	}
	return found
}

// textAt returns the JSON Web Key of an item. The caller has the lock, or is the only one that has the keys.
func (k *keys) textAt(place int) ([]byte, error) {
	return answer(256, func(to view, length *C.size_t) C.enum_jwt_status {
		return C.jwt_keys_text(&k.handle, C.size_t(place), to.chars, to.len, length)
	})
}

// thumbprint returns the thumbprint of the first item. The caller is the only one that has the keys.
func (k *keys) thumbprint(bits uint32) ([]byte, error) {
	text, status := fill(96, func(to view, length *C.size_t) C.enum_jwt_status {
		return C.jwt_thumbprint(&k.handle, 0, C.uint32_t(bits), to.chars, to.len, length)
	})
	switch status {
	case C.JWT_OK:
		return text, nil
	case C.JWT_INVALID_ALGORITHM_NAME:
		return nil, refusal(status, 0)
	}
	return nil, keyRefusal(status)
}

// sign returns the token of a header and claims, signed byte for byte. The caller is the only one that has the keys, one secret.
func (k *keys) sign(header, claims []byte) ([]byte, error) {
	return answer(2*(len(header)+len(claims))+128, func(to view, length *C.size_t) C.enum_jwt_status {
		header, claims := viewOf(header), viewOf(claims)
		return C.jwt_sign(&k.handle, header.chars, header.len, claims.chars, claims.len, to.chars, to.len, length)
	})
}

// handle is a verifier of the library, which may be in one call at a time, and what the last call said.
type handle struct {
	verifier C.struct_jwt_handle
	said     C.struct_jwt_verdict
}

// preparedSize is the greatest number of bytes that the prepared keys of a handle take. To prepare a key takes as long as one or two
// verifications.
type preparedSize = C.size_t

const (
	forManyTokens preparedSize = 0 // that of the library, JWT_PREPARED_LIMIT
	forOneToken   preparedSize = C.JWT_PREPARE_NOTHING
	// forFetchedSet has room for 64 keys on P-256. A key server can send thousands of keys, and preparing them all takes seconds.
	forFetchedSet preparedSize = 1 << 20
)

// newHandle returns a verifier of keys and options, or the refusal.
func newHandle(by *keys, options []byte, prepared preparedSize) (*handle, error) {
	made, text := &handle{}, viewOf(options)
	by.mutex.Lock()
	status := C.jwt_verifier_new(&by.handle, text.chars, text.len, 0, prepared, &made.verifier) // 0 is JWT_TOKEN_LIMIT
	by.mutex.Unlock()
	switch status {
	case C.JWT_OK:
		return made.owned(), nil
	case C.JWT_BAD_OPTIONS:
		return nil, refusal(status, 0)
	case C.JWT_NO_USABLE_KEY:
		return nil, by.unusable()
	}
	return nil, keyRefusal(status)
}

// owned has the garbage collector free a handle.
func (it *handle) owned() *handle {
	runtime.SetFinalizer(it, func(it *handle) { C.jwt_free(&it.verifier) })
	return it
}

// share returns one more handle of the same keys and options.
func (it *handle) share() (*handle, error) {
	made := &handle{}
	if status := C.jwt_share(&it.verifier, &made.verifier); status != C.JWT_OK {
		return nil, refusal(status, 0)
	}
	return made.owned(), nil
}

// or returns a handle that accepts what this one accepts, and else what the other one does.
func (it *handle) or(other *handle) (*handle, error) {
	made := &handle{}
	if status := C.jwt_verifier_or(&it.verifier, &other.verifier, &made.verifier); status != C.JWT_OK {
		return nil, refusal(status, 0)
	}
	return made.owned(), nil
}

// smallToken has room for the claims of a short token: one request for memory takes less time than two.
type smallToken struct {
	held
	room [200]byte
}

// decode returns a token that is verified, or the status of the refusal, about which the handle has a verdict.
func (it *handle) decode(token string, now uint64) (*Token, C.enum_jwt_status) {
	var made *held
	var claims []byte
	// a token that is too long has no claims
	if size := len(token)*3/4 + 64; size <= len(smallToken{}.room) || len(token) > C.JWT_TOKEN_LIMIT {
		small := &smallToken{}
		made, claims = &small.held, small.room[:]
	} else {
		made, claims = &held{}, make([]byte, size)
	}
	verifier := (*C.uint8_t)(unsafe.Pointer(&it.verifier))
	for {
		to := viewOf(claims)
		status := C.decode(verifier, token, C.uint64_t(now), to.chars, to.len, &it.said)
		switch status {
		case C.JWT_OK:
			return made.set(token, claims[:it.said.len]), status
		case C.JWT_BUFFER_TOO_SMALL:
			claims = make([]byte, it.said.len)
		default:
			return nil, status
		}
	}
}

// attach returns the token of a message and its signature, which the verifier tests first. A handle that holds nothing tests the length alone.
func (it *handle) attach(message, signature []byte) (string, error) {
	token, err := answer(len(message)+2*len(signature)+2, func(to view, length *C.size_t) C.enum_jwt_status {
		message, signature := viewOf(message), viewOf(signature)
		return C.jwt_attach(&it.verifier, message.octets, message.len, signature.octets, signature.len, to.chars, to.len, length)
	})
	return string(token), err
}
