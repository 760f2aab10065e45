package jwt

import (
	"encoding/json"
	"errors"
	"fmt"
	"strings"
	"testing"
)

type account struct {
	Sub, Iss, Jti string
	Exp, Iat, Nbf int64
	Role          string
	Realm         struct{ Roles []string }
	List          []struct{ Key string }
}

func claimsOf(t *testing.T, claims string) *Token {
	t.Helper()
	token, err := parse(t, signed(`{"alg":"HS256"}`, claims, secret), secretOf(t, secret), []string{"HS256"}, WithoutExpiry())
	if err != nil {
		t.Fatalf("%s: %v", claims, err)
	}
	return token
}

// TestOtherNames has claims that encoding/json reads as others, which the library did not check: they are refused, and nothing is read.
func TestOtherNames(t *testing.T) {
	for _, claims := range []string{
		`{"sub":"alice","\u017fub":"root"}`,
		`{"sub":"alice","SUB":"root"}`,
		`{"Sub":"root","sub":"alice"}`,
		`{"SUB":"root"}`,
		`{"\u017fub":"root"}`,
		`{"i\u017f\u017f":"https://evil"}`,
		`{"Exp":1}`, `{"EXP":1}`, `{"Nbf":1}`, `{"Iat":1}`, `{"JTI":"x"}`, `{"Aud":"x"}`, `{"iSS":"x"}`,
		`{"role":"user","ROLE":"admin"}`,
		`{"key":1,"\u212aey":2}`,
		`{"caf\u00e9":1,"CAF\u00c9":2}`,
		`{"\u03c3":1,"\u03c2":2}`,
		`{"realm":{"roles":["user"],"ROLES":["admin"]}}`,
		`{"realm":{"roles":["user"],"role\u017f":["admin"]}}`,
		`{"list":[1,[],{"key":"a","\u212aey":"b"}]}`,
		`{"a":{"b":[{"c":{"d":1,"D":2}}]}}`,
		"{\"sub\":\"alice\",\"SUB\" \t\r\n:\"root\"}",
		`{"a\\":"\\\\","sub":"alice","SUB":"root"}`,
		`{"x":"\"sub\":","sub":"alice","\u0053UB":"root"}`,
		`{"sub":"alice","x":[{}, "\\" ,[]],"\u017fub":"root"}`,
	} {
		var read account
		err := claimsOf(t, claims).Claims(&read)
		if !errors.Is(err, ErrMalformed) || fmt.Sprint(read) != fmt.Sprint(account{}) {
			t.Errorf("%s: %+v, %v", claims, read, err)
		}
	}
}

// TestSubjectIsChecked has the token that passes by one subject, and would be read as that of another.
func TestSubjectIsChecked(t *testing.T) {
	token, err := parse(t, signed(`{"alg":"HS256"}`, `{"exp":1700000001,"sub":"alice","iss":"https://i","\u017fub":"root","i\u017fs":"https://evil"}`, secret),
		secretOf(t, secret), []string{"HS256"}, WithSubject("alice"), WithIssuer("https://i"))
	if err != nil {
		t.Fatal(err)
	}
	var into struct{ Sub, Iss string }
	if err := token.Claims(&into); !errors.Is(err, ErrMalformed) || into.Sub != "" || into.Iss != "" {
		t.Errorf("%v, %v", into, err)
	}
	var all map[string]any
	if err := token.Claims(&all); !errors.Is(err, ErrMalformed) || all != nil {
		t.Errorf("%v, %v", all, err)
	}
	if !strings.Contains(string(token.RawClaims()), `"alice"`) {
		t.Error(string(token.RawClaims()))
	}
}

type readsItself struct{ account }

func (it *readsItself) UnmarshalJSON(text []byte) error { return json.Unmarshal(text, &it.account) }

type mapThatReadsItself map[string]any

func (it *mapThatReadsItself) UnmarshalJSON(text []byte) error {
	var read account
	*it = mapThatReadsItself{"read": &read}
	return json.Unmarshal(text, &read)
}

// TestNestedNames has nested objects that a struct reads otherwise than a map of any, which may have them.
func TestNestedNames(t *testing.T) {
	type named map[string]interface{}
	token := claimsOf(t, `{"groups":{"Admins":1,"admins":2},"realm":{"roles":["user"],"ROLES":["admin"]}}`)
	var plain map[string]any
	var other named
	var empty any
	for _, into := range []any{&plain, &other, &empty} {
		if err := token.Claims(into); err != nil {
			t.Errorf("%T: %v", into, err)
		}
	}
	if groups := plain["groups"].(map[string]any); groups["Admins"] != 1.0 || groups["admins"] != 2.0 {
		t.Error(groups)
	}
	var filled any = &account{}
	var itself readsItself
	var itselfAsMap mapThatReadsItself
	var raw map[string]json.RawMessage
	var accounts map[string]account
	for _, into := range []any{&filled, &itself, &itselfAsMap, &raw, &accounts, &account{}, account{}, nil, (*account)(nil)} {
		if err := token.Claims(into); !errors.Is(err, ErrMalformed) {
			t.Errorf("%T: %v", into, err)
		}
	}
}

// TestPlainNames has claims whose names are all different.
func TestPlainNames(t *testing.T) {
	var read account
	claims := `{"aud2":1,"exp":1700000009,"iat":1,"iss":"i","jti":"j","list":[{"key":"a"},{"key":"b"}],"nbf":1,` +
		`"other":{"sub":1,"SUB2":[{"x":1},{"X":1}],"y":{"Sub":1}},"realm":{"roles":["user"]},"role":"user","sub":"alice","subject":"root","\u017f":1,"t":18446744073709551615}`
	if err := claimsOf(t, claims).Claims(&read); err != nil || read.Sub != "alice" || read.Role != "user" || read.List[1].Key != "b" {
		t.Errorf("%+v, %v", read, err)
	}
	claims = `{"x":"SUB","y":["\"Sub\":1","\u017fub",":","É"],"z" : "\\","sub":"alice","https://a.example/Roles":1,"userId":2}`
	if err := claimsOf(t, claims).Claims(&read); err != nil || read.Sub != "alice" {
		t.Errorf("%+v, %v", read, err)
	}
	deep := `{"a":` + strings.Repeat(`[{"a":`, 50) + `1` + strings.Repeat(`}]`, 50) + `}`
	if err := claimsOf(t, deep).Claims(&read); err != nil {
		t.Error(err)
	}
}

// TestCostOfNames compares the allocations of reading claims with those of json.Unmarshal alone: names in lower case are compared without any.
func TestCostOfNames(t *testing.T) {
	claims := []byte(`{"sub":"b@b.com","company":"ACME","exp":2532524891}`)
	var read session
	alone := testing.AllocsPerRun(100, func() { _ = json.Unmarshal(claims, &read) })
	if whole := testing.AllocsPerRun(100, func() { _ = readClaims(claims, &read) }); whole > alone+2 {
		t.Errorf("%v allocations, and %v of json.Unmarshal", whole, alone)
	}
}
