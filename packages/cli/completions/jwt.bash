# Completions of the command jwt for bash: source it. tools/docs/command_pages writes this file.

_jwt() {
    local word=${COMP_WORDS[COMP_CWORD]} words='' files=''
    case "$COMP_CWORD ${COMP_WORDS[1]} ${COMP_WORDS[COMP_CWORD - 1]}" in
        '1 '*) words='verify explain show sign keys jwk thumbprint help --help --version' ;;
        *' verify --secret-file' | *' verify --jwk' | *' verify --jwks' | *' verify --pem' | *' verify --options') files=-f ;;
        *' verify --alg') words='HS256 HS384 HS512 RS256 RS384 RS512 PS256 PS384 PS512 ES256 ES384 EdDSA' ;;
        *' verify --aud' | *' verify --iss' | *' verify --sub' | *' verify --leeway' | *' verify --not-within' | *' verify --crit' | *' verify --typ' | *' verify --now') ;;
        *' verify --require') words='exp nbf aud iss sub' ;;
        *' verify '*) words='--secret-file --jwk --jwks --pem --trim --allow-key-as-secret --alg --aud --iss --sub --leeway --not-within --require --nbf --no-exp --strict --crit --typ --now --options --json --header --lines --help' ;;
        *' explain --secret-file' | *' explain --jwk' | *' explain --jwks' | *' explain --pem' | *' explain --options') files=-f ;;
        *' explain --alg') words='HS256 HS384 HS512 RS256 RS384 RS512 PS256 PS384 PS512 ES256 ES384 EdDSA' ;;
        *' explain --aud' | *' explain --iss' | *' explain --sub' | *' explain --leeway' | *' explain --not-within' | *' explain --crit' | *' explain --typ' | *' explain --now') ;;
        *' explain --require') words='exp nbf aud iss sub' ;;
        *' explain '*) words='--secret-file --jwk --jwks --pem --trim --allow-key-as-secret --alg --aud --iss --sub --leeway --not-within --require --nbf --no-exp --strict --crit --typ --now --options --json --brief --help' ;;
        *' show --now') ;;
        *' show '*) words='--now --json --help' ;;
        *' sign --secret-file' | *' sign --signature' | *' sign --claims' | *' sign --pem' | *' sign --jwk' | *' sign --jwks') files=-f ;;
        *' sign --alg') words='HS256 HS384 HS512 RS256 RS384 RS512 PS256 PS384 PS512 ES256 ES384 EdDSA' ;;
        *' sign --kid' | *' sign --typ' | *' sign --exp-in' | *' sign --nbf-in' | *' sign --now') ;;
        *' sign '*) words='--secret-file --signing-input --signature --trim --allow-key-as-secret --claims --alg --kid --typ --exp-in --nbf-in --iat --now --pem --jwk --jwks --help' ;;
        *' keys '*) words='--json --help' files=-f ;;
        *' jwk '*) words='--help' files=-f ;;
        *' thumbprint --hash') words='SHA256 SHA384 SHA512' ;;
        *' thumbprint '*) words='--hash --help' files=-f ;;
        *' help '*) words='verify explain show sign keys jwk thumbprint' ;;
    esac
    mapfile -t COMPREPLY < <(compgen $files -W "$words" -- "$word")
}

complete -o filenames -F _jwt jwt ./jwt
