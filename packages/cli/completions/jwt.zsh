#compdef jwt
# Completions of the command jwt for zsh: a folder of fpath has it as _jwt. tools/docs/command_pages writes this file.

_jwt() {
    local line state
    local -a commands=(
        'verify:Verify a token and print its claims'
        'explain:Explain each test of a token, and when it is accepted'
        'show:Print header and claims of a token, unverified'
        'sign:Sign claims, and print the token'
        'keys:Print a table of a key set'
        'jwk:Print a public key in PEM as a JSON Web Key'
        'thumbprint:Print the thumbprint of a key (RFC 7638)'
        'help:Print the help of a command'
    )
    _arguments -C '(- *)--help[Print help]' '(- *)--version[Print the version]' '1: :->command' '*:: :->arguments'
    case "$state $line[1]" in
        command*) _describe command commands ;;
        *' verify')
            _arguments \
                '::TOKEN: ' \
                '(--jwk --jwks --pem)--secret-file[Verify with HMAC and the bytes of this file as the secret]:FILE:_files' \
                '(--secret-file --jwks --pem)--jwk[Verify with this JSON Web Key (RFC 7517)]:FILE:_files' \
                '(--secret-file --jwk --pem)--jwks[Verify with the key of this set that the token'\''s '\''kid'\'' names]:FILE:_files' \
                '(--secret-file --jwk --jwks)--pem[Verify with this public key in PEM (RFC 7468)]:FILE:_files' \
                '--trim[Leave one newline at the end of the secret file out of the secret]' \
                '--allow-key-as-secret[Accept a secret that is the text of a key, for tests\: anyone can sign with a public key]' \
                '*--alg[Accept this algorithm (default\: the '\''alg'\'' of the key)]:ALG:(HS256 HS384 HS512 RS256 RS384 RS512 PS256 PS384 PS512 ES256 ES384 EdDSA)' \
                '*--aud[Accept tokens whose '\''aud'\'' names this audience]:AUDIENCE: ' \
                '*--iss[Accept tokens of this issuer only]:ISSUER: ' \
                '--sub[Accept tokens of this subject only]:SUBJECT: ' \
                '--leeway[Accept tokens this long after '\''exp'\'' and before '\''nbf'\'' (default\: 60s)]:SPAN: ' \
                '--not-within[Refuse tokens this long before they expire (default\: 0s)]:SPAN: ' \
                '*--require[Require this claim\: '\''exp'\'', '\''nbf'\'', '\''aud'\'', '\''iss'\'' or '\''sub'\'']:CLAIM:(exp nbf aud iss sub)' \
                '--nbf[Check '\''nbf'\'']' \
                '--no-exp[Neither require nor check '\''exp'\'']' \
                '--strict[Check '\''nbf'\'', without leeway, and refuse from '\''exp'\'' on]' \
                '*--crit[Understand this member in the header'\''s '\''crit'\'']:NAME: ' \
                '--typ[Accept tokens of this '\''typ'\'' only]:TYPE: ' \
                '--now[Take this time as now\: seconds since 1970 UTC, or RFC 3339]:TIME: ' \
                '--options[Begin with the options of this JSON file]:FILE:_files' \
                '--json[Write the answer as one line of JSON]' \
                '--header[Print the header too, on a line before the claims]' \
                '--lines[Read one token per line, and answer each with a line of JSON]' \
                '(- *)--help[Print help]'
            ;;
        *' explain')
            _arguments \
                '::TOKEN: ' \
                '(--jwk --jwks --pem)--secret-file[Verify with HMAC and the bytes of this file as the secret]:FILE:_files' \
                '(--secret-file --jwks --pem)--jwk[Verify with this JSON Web Key (RFC 7517)]:FILE:_files' \
                '(--secret-file --jwk --pem)--jwks[Verify with the key of this set that the token'\''s '\''kid'\'' names]:FILE:_files' \
                '(--secret-file --jwk --jwks)--pem[Verify with this public key in PEM (RFC 7468)]:FILE:_files' \
                '--trim[Leave one newline at the end of the secret file out of the secret]' \
                '--allow-key-as-secret[Accept a secret that is the text of a key, for tests\: anyone can sign with a public key]' \
                '*--alg[Accept this algorithm (default\: the '\''alg'\'' of the key)]:ALG:(HS256 HS384 HS512 RS256 RS384 RS512 PS256 PS384 PS512 ES256 ES384 EdDSA)' \
                '*--aud[Accept tokens whose '\''aud'\'' names this audience]:AUDIENCE: ' \
                '*--iss[Accept tokens of this issuer only]:ISSUER: ' \
                '--sub[Accept tokens of this subject only]:SUBJECT: ' \
                '--leeway[Accept tokens this long after '\''exp'\'' and before '\''nbf'\'' (default\: 60s)]:SPAN: ' \
                '--not-within[Refuse tokens this long before they expire (default\: 0s)]:SPAN: ' \
                '*--require[Require this claim\: '\''exp'\'', '\''nbf'\'', '\''aud'\'', '\''iss'\'' or '\''sub'\'']:CLAIM:(exp nbf aud iss sub)' \
                '--nbf[Check '\''nbf'\'']' \
                '--no-exp[Neither require nor check '\''exp'\'']' \
                '--strict[Check '\''nbf'\'', without leeway, and refuse from '\''exp'\'' on]' \
                '*--crit[Understand this member in the header'\''s '\''crit'\'']:NAME: ' \
                '--typ[Accept tokens of this '\''typ'\'' only]:TYPE: ' \
                '--now[Take this time as now\: seconds since 1970 UTC, or RFC 3339]:TIME: ' \
                '--options[Begin with the options of this JSON file]:FILE:_files' \
                '--json[Write the answer as one line of JSON]' \
                '--brief[Write the verdict, its cause and its cure alone]' \
                '(- *)--help[Print help]'
            ;;
        *' show')
            _arguments \
                '::TOKEN: ' \
                '--now[Take this time as now\: seconds since 1970 UTC, or RFC 3339]:TIME: ' \
                '--json[Write one line of JSON]' \
                '(- *)--help[Print help]'
            ;;
        *' sign')
            _arguments \
                '(--signing-input --signature)--secret-file[Sign with HMAC and the bytes of this file as the secret]:FILE:_files' \
                '(--secret-file --signature)--signing-input[Print what another program has to sign with RSA or a curve, without a line end]' \
                '(--secret-file --signing-input)--signature[Print the token of the signing input on standard input and this signature, raw or in DER]:FILE:_files' \
                '--trim[Leave one newline at the end of the secret file out of the secret]' \
                '--allow-key-as-secret[Accept a secret that is the text of a key, for tests\: anyone can sign with a public key]' \
                '--claims[Read the claims from this file (default\: standard input)]:FILE:_files' \
                '--alg[Sign with this algorithm (default\: HS256)]:ALG:(HS256 HS384 HS512 RS256 RS384 RS512 PS256 PS384 PS512 ES256 ES384 EdDSA)' \
                '--kid[Write this '\''kid'\'' into the header]:NAME: ' \
                '--typ[Write this '\''typ'\'' into the header (default\: JWT)]:TYPE: ' \
                '--exp-in[Let the token expire after this span, such as 15m or 12h]:SPAN: ' \
                '--nbf-in[Let the token be valid after this span]:SPAN: ' \
                '--iat[Write the time into '\''iat'\'']' \
                '--now[Take this time as now\: seconds since 1970 UTC, or RFC 3339]:TIME: ' \
                '--pem[Verify the signature with this public key in PEM (RFC 7468) first]:FILE:_files' \
                '--jwk[Verify the signature with this JSON Web Key (RFC 7517) first]:FILE:_files' \
                '--jwks[Verify the signature with the key of this set that the '\''kid'\'' names first]:FILE:_files' \
                '(- *)--help[Print help]'
            ;;
        *' keys')
            _arguments \
                ':FILE:_files' \
                '--json[Write one line of JSON]' \
                '(- *)--help[Print help]'
            ;;
        *' jwk')
            _arguments \
                ':FILE:_files' \
                '(- *)--help[Print help]'
            ;;
        *' thumbprint')
            _arguments \
                ':FILE:_files' \
                '--hash[SHA256, SHA384 or SHA512 (default\: SHA256)]:HASH:(SHA256 SHA384 SHA512)' \
                '(- *)--help[Print help]'
            ;;
        *' help') _arguments '1:command:(verify explain show sign keys jwk thumbprint)' ;;
    esac
}

_jwt "$@"
