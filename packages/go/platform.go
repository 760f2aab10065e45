//go:build !cgo || !linux || !amd64

package jwt

// The package contains the library for C, which is built for Linux on x86-64 alone. The compiler's error names what is missing.
var _ = needs_CGO_ENABLED_1_and_a_C_compiler_on_Linux_for_amd64
