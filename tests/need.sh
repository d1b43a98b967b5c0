# Installs packages of Debian that are missing, where need be behind an update of apt's lists. To be
# read by a script: need PACKAGE..
need() {
    missing=
    for package; do
        dpkg -s "$package" >/dev/null 2>&1 || missing="$missing $package"
    done
    if [ -n "$missing" ]; then
        echo "installs$missing" >&2
        install_missing || { apt-get update >&2 && install_missing; }
    fi
}

install_missing() {
    # shellcheck disable=SC2086
    DEBIAN_FRONTEND=noninteractive apt-get install -y --no-install-recommends $missing >&2
}
