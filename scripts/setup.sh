# shellcheck shell=sh
# Installs from Debian what this machine lacks. Usage: . scripts/setup.sh; then `need PACKAGE CHECK...` for each and `install_missing`.
missing=
need() { # the package is wanted unless the check succeeds
    package=$1
    shift
    "$@" >/dev/null 2>&1 || missing="$missing $package"
}

install_missing() {
    [ -n "$missing" ] || return 0
    echo "installing:$missing"
    as_root=
    [ "$(id -u)" -eq 0 ] || as_root=sudo
    export DEBIAN_FRONTEND=noninteractive
    $as_root apt-get -qq update
    # shellcheck disable=SC2086  # a list of packages
    $as_root apt-get -qq install -y --no-install-recommends $missing >/dev/null
}
