#!/bin/sh
# Makes certificates in a folder, and an authority that signs them, if the folder has none. Each FILE.pem holds a key and
# its certificate, for its owner alone.
#
# usage: certificates.sh FOLDER client TENANT   TENANT.pem, for a client of a tenant
#        certificates.sh FOLDER server HOST     HOST.pem, for a machine that clients or fronts connect to
#        certificates.sh FOLDER front HOST      HOST.front.pem, by which a front connects to machines with shards
#
# No file is written over. The key of the authority, ca.key, is for the machine that signs, and no other.
set -eu

days=825

fail() {
    echo "certificates.sh: $1" >&2
    exit 1
}

# openssl, which is heard only if it fails.
quietly() {
    said=$(openssl "$@" 2>&1) || fail "openssl $1: $said"
}

# A key, and a certificate for it that the authority signs: file, subject, extensions.
signed() {
    [ ! -e "$1.pem" ] || fail "$1.pem is there already"
    quietly req -new -newkey ec -pkeyopt ec_paramgen_curve:prime256v1 -nodes -keyout "$1.key" -out "$1.csr" -subj "/CN=$2"
    printf 'basicConstraints=critical,CA:FALSE\n%s\n' "$3" > "$1.ext"
    quietly x509 -req -in "$1.csr" -CA ca.crt -CAkey ca.key -days "$days" -extfile "$1.ext" -out "$1.crt"
    cat "$1.key" "$1.crt" > "$1.pem"
    rm "$1.key" "$1.crt" "$1.csr" "$1.ext"
    echo "$1.pem"
}

authority() {
    quietly req -x509 -newkey ec -pkeyopt ec_paramgen_curve:prime256v1 -nodes -keyout ca.key -out ca.crt -days 3650 \
        -subj "/CN=arena authority" -addext basicConstraints=critical,CA:TRUE -addext keyUsage=critical,keyCertSign,cRLSign
    chmod 644 ca.crt
    echo "ca.crt"
}

command -v openssl >/dev/null || fail "openssl is not installed"
[ $# -eq 3 ] || fail "FOLDER, client, server or front, and a name"
umask 077
mkdir -p "$1"
cd "$1"
[ -e ca.key ] || authority
case $2 in
    client)
        # A tenant's name, which has no dot, so no tenant can be taken for a front.
        case $3 in "" | *[!a-z0-9-]*) fail "a tenant's name has a to z, 0 to 9 and -" ;; esac
        [ "${#3}" -le 32 ] || fail "a tenant's name has at most 32 characters"
        signed "$3" "$3" extendedKeyUsage=clientAuth
        ;;
    server) signed "$3" "$3" "$(printf 'extendedKeyUsage=serverAuth\nsubjectAltName=DNS:%s' "$3")" ;;
    front)
        case $3 in *.*) ;; *) fail "a front's name has a dot" ;; esac
        signed "$3.front" "$3" extendedKeyUsage=clientAuth
        ;;
    *) fail "$2 is none of client, server and front" ;;
esac
