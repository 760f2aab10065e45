module speed

go 1.19

require (
	curbsorrel.example/jwt v0.0.0
	github.com/golang-jwt/jwt/v4 v4.4.3
)

replace (
	curbsorrel.example/jwt => ../../go
	// Debian's golang-github-golang-jwt-jwt-dev
	github.com/golang-jwt/jwt/v4 => /usr/share/gocode/src/github.com/golang-jwt/jwt
)
